"""Has the prover refuse wrong bodies, one of each function of a crate in one check.

A file crates/NAME/wrong-bodies/MODULE.edits puts wrong bodies instead of right ones (edits.py). The edits of a crate are planted in
copies of it (planted.py). An edit that these checks do not show refused, as when a body does not compile, is tried again alone.

An edit is refused for its meaning if a goal of the edited function is open. An unproved callee shows nothing. An answer that no longer
proves its goal shows little: a right body may break it too, and the goal may be true for another reason. So such an edit needs a twin,
a right body in the same place. The twin must be proved with the answer, unless a tactic in the answer found no proof. Then the edit is
tried without the answer. If it is proved, it is not refused. If its goal is open, it is refused: for its meaning if the prover finds
a counterexample, and otherwise by an answer alone. The last lines count the edits that an answer alone refuses, since a reviewer must
check that the contract forbids them.

Which edits were refused is kept on this machine, by the sum of all that their check read. Nothing else is kept.

If something that these checks need is not there (checks.py), or with JWT_TESTS_PLAIN=1, `rt must-fail` tries each edit by itself, and
refuses it if the crate is not proved with it.
"""
import concurrent.futures
import os
import re
import subprocess
import tempfile
import time

from build import built, checks, kit
from build.copies import copy_crates
from build.crates import crates
from build.edits import edits_of
from build.kept import Store, key_of
from build.planted import Planted, Report

ALLOWED = "it is proved without the answer that does not fit it, so its contract allows it"
NO_TWIN = "only an answer no longer fits, as it might under a right body"
BAD_TWIN = "only an answer no longer fits, and its twin is not proved"
# The reason of an edit that an answer alone refuses.
BY_ANSWER = "its answer no longer proves its goal, and nothing else does"
REFUSED = "refused, as it must be"
# An environment variable that has rt try each wrong body by itself.
PLAIN = "JWT_TESTS_PLAIN"


def try_edits(crate, edits):
    """Tries edits in as few checks as they fit in, and then alone what was neither refused nor met by an answer that does not fit."""
    left = edits
    with tempfile.TemporaryDirectory(prefix="wrong-bodies-") as work:
        while left:
            planted = Planted(crate, left)
            found = Report(planted, work)
            for edit in planted.tried:
                found.judge(edit)
            broken = found.uncompiled()
            left = [edit for edit in left if edit not in broken] if broken else planted.left
        for edit in [edit for edit in edits if not edit.is_refused and not may_be_by_answer(edit)]:
            Report(Planted(crate, [edit]), work).judge(edit)
        for edit in edits:
            if edit.misfit and not may_be_by_answer(edit):
                edit.said = f"{NO_TWIN}: {edit.misfit}"
        try_without_answers(crate, with_right_twins(crate, list(filter(may_be_by_answer, edits)), work), work)


def may_be_by_answer(edit):
    """Returns whether only answers no longer prove their goals, in an edit that has a twin, or for want of a tactic's proof."""
    return bool(edit.misfit) and (edit.has_twin or edit.is_unproved)


def with_right_twins(crate, edits, work):
    """Returns these edits without those whose twins are not proved."""
    wrong = [edit for edit, why in tried_twins(crate, edits, work) if why]
    for edit in wrong:
        edit.said = f"{BAD_TWIN}: {edit.misfit}"
    return [edit for edit in edits if edit not in wrong]


def try_without_answers(crate, edits, work):
    """Tries edits without the answers that do not fit. If the prover proves an edit without them, it is not refused."""
    left = edits
    for edit in left:
        edit.left_out = set(edit.unfit)
    while left:
        planted = Planted(crate, left)
        found, again = Report(planted, work), []
        for edit in planted.tried:
            misfit = edit.misfit
            found.judge(edit)
            if edit.unfit - edit.left_out:
                edit.left_out |= edit.unfit
                again.append(edit)
            elif found.proves(edit):
                edit.said = f"{ALLOWED}: {misfit}"
            elif not found.refutes(edit) and (edit.is_refused or edit.misfit):
                edit.is_refused, edit.said = True, f"{BY_ANSWER}: {misfit}"
        left = [*planted.left, *again]


def tried_twins(crate, edits, work=None):
    """Yields the edits that have twins, each with why its twin is not proved, or None."""
    left = [edit for edit in edits if edit.has_twin and not edit.is_bad]
    while left:
        planted = Planted(crate, left, twins=True)
        found = Report(planted, work)
        yield from ((edit, None if found.proves(edit) else found.why_unproved(edit)) for edit in planted.tried)
        left = planted.left


class Earlier:
    """The edits of a crate that an earlier run on this machine saw refused."""

    def __init__(self, crate, is_anew):
        self.crate, self.is_anew = crate, is_anew
        self.sum = self.sum_now()

    def sum_now(self):
        """Returns the sum of all that a try of an edit reads, but for the edit."""
        return key_of(built.sum_of_means(self.crate), built.sum_of_sources(self.crate))

    def place(self, edit):
        """Returns where the edit's refusals are kept, and the key of the one that stands for it as it is."""
        return Store(f"wrong-bodies/{self.crate.name}/{edit.name}"), key_of(self.sum, edit.text)

    def take(self, edits):
        """Marks the edits that were refused earlier, and returns the others."""
        left = []
        for edit in edits:
            store, key = self.place(edit)
            found = None if self.is_anew else store.find(key)
            if found is None:
                left.append(edit)
            else:
                edit.is_refused, edit.said = True, found
        return left

    def keep(self, edits):
        """Keeps the edits that were refused, unless a file that their tries read was changed meanwhile."""
        if self.sum_now() != self.sum:
            return
        for edit in edits:
            if edit.is_refused:
                store, key = self.place(edit)
                store.keep(key, edit.said)


def is_by_answer(edit):
    return edit.is_refused and edit.said.startswith(BY_ANSWER)


def try_all(crate, edits, is_anew):
    """Tries a crate's edits and says how each went. Returns how many were tried in this run."""
    start = time.monotonic()
    earlier = Earlier(crate, is_anew)
    left = earlier.take([edit for edit in edits if not edit.is_bad])
    try_edits(crate, left)
    earlier.keep(left)
    for edit in edits:
        word = "BAD EDIT" if edit.is_bad else REFUSED if edit.is_refused else "NOT REFUSED"
        print(f"wrong body {crate.name}/{edit.name}: {word}: {edit.said[:200]}")
    refused, by_answer = sum(edit.is_refused for edit in edits), sum(map(is_by_answer, edits))
    how = f"{len(left)} of them tried in this run, in {time.monotonic() - start:.0f} s"
    print(f"{crate.name}: {refused} of {len(edits)} wrong bodies refused, {by_answer} of them by an answer alone; {how}", flush=True)
    return len(left)


def try_twins(crate, edits):
    """Has the prover prove the twins of edits, and says how each went. Returns how many are not proved."""
    lost = 0
    for edit, why in tried_twins(crate, edits):
        print(f"twin of {crate.name}/{edit.name}: {f'NOT PROVED: {why[:200]}' if why else 'proved, as it must be'}", flush=True)
        lost += bool(why)
    return lost


def side_by_side(call, edits):
    """Calls with each crate and its edits, as many side by side as there are processors and memory for. Returns what each call gave."""
    lanes = int(kit.one_job_each({})["RT_JOBS"])
    largest_first = sorted(edits, key=lambda crate: -len(edits[crate]) * crate.lines())
    with concurrent.futures.ThreadPoolExecutor(lanes) as pool:
        return list(pool.map(lambda crate: call(crate, edits[crate]), largest_first))


def try_plainly(edits):
    """Has rt must-fail try the edits of these crates of a copy, but those that can't be applied. Returns how many are refused."""
    for crate, some in edits.items():
        os.makedirs(f"{crate.folder}/must-fail", exist_ok=True)
        for edit in some:
            if not edit.is_bad:
                with open(f"{crate.folder}/must-fail/{edit.name.replace('/', '-')}.edit", "w", encoding="utf-8") as file:
                    file.write(edit.must_fail_text())
    root = next(iter(edits)).root
    how = {"cwd": root, "stdin": subprocess.DEVNULL, "stdout": subprocess.PIPE, "stderr": subprocess.STDOUT, "text": True, "errors": "replace"}
    ran = kit.rt("must-fail", *[crate.name for crate in edits], **how)
    print(ran.stdout, end="", flush=True)
    if ran.returncode == 0:
        return sum(not edit.is_bad for some in edits.values() for edit in some)
    return len(re.findall(rf"(?m)^rt: must-fail \S+: {REFUSED}", ran.stdout))


def found_edits(named):
    """Returns the edits of these crates, by their crates; those without edits are left out."""
    return {crate: found for crate in named if (found := edits_of(crate))}


def is_plain(crates):
    """Returns whether rt must-fail tries the edits of these crates."""
    return bool(os.environ.get(PLAIN)) or checks.is_plain(crates)


def refuse(edits, is_anew):
    """Tries the edits of crates of a copy over the libraries that rt built. Returns how many are refused."""
    if is_plain(edits):
        return try_plainly(edits)
    tried = sum(side_by_side(lambda crate, some: try_all(crate, some, is_anew), edits))
    every = [edit for some in edits.values() for edit in some]
    print(f"{sum(map(is_by_answer, every))} of {len(every)} wrong bodies are refused by an answer alone: without it, the prover neither proves nor refutes the goal")
    print(f"{tried} of {len(every)} wrong bodies were tried in this run, and the others in an earlier one")
    return sum(edit.is_refused for edit in every)


def build_below(named):
    """Builds the libraries below these crates by rt lib, if they have changed. Returns whether all are built."""
    below = list(dict.fromkeys(library for crate in named for library in crate.below))
    return all(kit.rt("lib", cwd=crate.folder, stdin=subprocess.DEVNULL).returncode == 0 for crate in below)


def refuse_here(edits, is_anew):
    """Tries the edits of crates over the libraries that rt lib builds, or on a copy if rt must-fail tries them. Returns how many are refused."""
    if not is_plain([]) and not build_below(list(edits)):
        return 0
    if not is_plain(edits):
        return refuse(edits, is_anew)
    with tempfile.TemporaryDirectory(prefix="wrong-bodies-") as scratch:
        copies = copy_crates(edits, f"{scratch}/copy")
        return try_plainly(found_edits([copies[crate.name] for crate in edits]))


def try_crates(given):
    """Tries the edits of the crates that the arguments name, or their twins. Returns whether all went as it must."""
    every = crates()
    edits = found_edits([every[name] for name in given.crates or every])
    if not edits:
        print("no wrong bodies")
        return True
    kit.tell_logic()
    if given.twins:
        lost = sum(side_by_side(try_twins, edits)) if build_below(list(edits)) else len(edits)
        print(f"twins: {lost} not proved")
        return not lost
    total, refused = sum(map(len, edits.values())), refuse_here(edits, given.anew)
    print(f"wrong bodies: {refused} refused, {total - refused} not")
    return refused == total
