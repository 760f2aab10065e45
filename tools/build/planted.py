"""Checks a crate in which wrong bodies are planted: many in one check, one of a function or of a cycle of calls.

A further wrong body of a function stands in a copy of it, under another name and with the same contract and answers. The proofs of
callers rest on a function's contract alone, so every other function loses its body, which would have to be read, and its proof.
"""
import os
import re
import shutil
import tempfile

from build import answers, checks
from build.edits import FUNCTION, at_home, functions_of, plain, text_of

PARTS = ("src", "specs", "proofs")
# The lines that rattle prints: a function's verdict, a goal that it did not prove, and an answer that is not a proof.
VERDICT = re.compile(r"fn (\S+): (.*)")
GOAL = re.compile(r"note: (?:\./)?(src/\S+?):(\d+):\d+: (it is not proved that .*|`search` found no proof .*)")
ANSWER = re.compile(r"(?:\./)?proofs/(\S+)/(\w+\.antt):(\d+):\d+: error: (.*)")
NO_PROOF = re.compile(r"`(?:search|grind|omega|simp|cc)\b[^`]*`: no proof|found no proof|no proof of")
# What rattle adds to a goal for which it found a counterexample.
REFUTED = "the facts known there allow values at which this goal is false"
NO_FUNCTION = re.compile(r"proofs/(\S+)/Proof\.antt: error: `\w+` has no function")
PROVED = ("no holes", "depends on a hole in")
# The line that rattle prints of a body that does not compile.
ERROR = re.compile(r"(?:\./)?(src/\S+?):(\d+):\d+: error")
# A body that is left out: it is of every type.
NO_BODY = "loop {}"


def applied(edits, twins=False):
    """Returns the texts of the files that these edits change, or None if one of them meets another."""
    texts = {}
    for edit in edits:
        for path, old, new, twin in edit.pairs:
            text = texts.get(path) or text_of(f"{edit.crate.folder}/{path}")
            if text.count(old) != 1:
                return None
            texts[path] = text.replace(old, twin if twins else new)
    return texts


def copied(edit, name, twins):
    """Returns the text of the edit's function with the edit and under another name, or None if there can be no such copy."""
    own = edit.function
    text = "\n".join(text_of(f"{edit.crate.folder}/{own.file}").split("\n")[own.first - 1 : own.last])
    if own.cycle or own.block and own.block.is_of_trait or os.path.isdir(answers.recursive_folder(edit.crate, own.spelled)):
        return None
    for path, old, new, twin in edit.pairs:
        if path != own.file or text.count(old) != 1:
            return None
        text = text.replace(old, twin if twins else new)
    return re.sub(rf"\bfn {own.name}\b", f"fn {name}", text, count=1)


class Planted:
    """A copy of a crate with edits planted, or their twins: `tried` has the edits in it, and `left` has the edits for another copy."""

    def __init__(self, crate, edits, twins=False):
        self.crate, self.twins, self.tried, self.left = crate, twins, [], []
        # the text of an edit's copy of its function, by its name
        self.copies, names = {}, {}
        for edit in edits:
            is_free = all(other.function.unit() != edit.function.unit() for other in self.tried)
            name = names[edit] = edit.function.name if is_free else f"{edit.function.name}_{len(self.copies)}"
            text = None if is_free else copied(edit, name, twins)
            if text:
                self.copies[edit] = name, text
            at_place = [it for it in [*self.tried, edit] if it not in self.copies]
            (self.tried if (is_free or text) and applied(at_place, twins) is not None else self.left).append(edit)
        self.texts = applied([edit for edit in self.tried if edit not in self.copies], twins)
        for edit, (_, text) in self.copies.items():
            self.insert(edit.function, text)
        found = [function for path in crate.modules() for function in functions_of(path, self.text(path))]
        self.all_functions = at_home(crate, found)
        spelled = {(function.file, function.spelled): function for function in found}
        renamed = lambda edit: "::".join([*edit.function.spelled.split("::")[:-1], names[edit]])
        self.functions = {edit: spelled[edit.function.file, renamed(edit)] for edit in self.tried}

    def insert(self, function, text):
        """Puts the text of a copy after the function."""
        lines = self.text(function.file).split("\n")
        found = at_home(self.crate, functions_of(function.file, self.text(function.file)))
        last = next(own.last for own in found if own.spelled == function.spelled)
        self.texts[function.file] = "\n".join([*lines[:last], "", text, *lines[last:]])

    def text(self, path):
        """Returns the text of a source file with the edits."""
        return self.texts.get(path) or text_of(f"{self.crate.folder}/{path}")

    def write(self, scratch, kept_proofs):
        """Writes the crate's copy, without bodies and proofs of the functions that have no edit, but for these."""
        for part in PARTS:
            if os.path.isdir(f"{self.crate.folder}/{part}"):
                shutil.copytree(f"{self.crate.folder}/{part}", f"{scratch}/{part}")
        for edit, (name, _) in self.copies.items():
            answers.copy(scratch, edit.function, name)
        for edit, function in self.functions.items():
            if not self.twins:
                answers.leave_out(f"{scratch}/{answers.folder_of(function.spelled)}", edit.left_out)
        kept = {function.path for function in self.functions.values()} | kept_proofs
        # a recursive function keeps its body: rattle names its proofs otherwise than those of the same function without it; so does a
        # destructor, whose proofs rattle looks for elsewhere
        recursive = {function.spelled for function in self.all_functions if os.path.isdir(answers.recursive_folder(self.crate, function.spelled))}
        stays = lambda own: own.cycle or own.spelled in recursive or own.path in kept or own.is_destructor()
        left_out = [own for own in self.all_functions if own.has_body and not stays(own)]
        for function in left_out:
            answers.leave_out_proof(self.crate, scratch, function.spelled)
        for path in self.crate.modules():
            lines = self.text(path).split("\n")
            for function in sorted((own for own in left_out if own.file == path), key=lambda own: -own.first):
                lines[function.first - 1 : function.last] = without_body(lines[function.first - 1 : function.last])
            with open(f"{scratch}/{path}", "w", encoding="utf-8") as opened:
                opened.write("\n".join(lines))

    def check_once(self, work, kept_proofs, only):
        """Checks the copy, and these of its functions alone if there are any, over what the folder `work` holds of earlier checks. Returns
        a status, and what was printed."""
        with tempfile.TemporaryDirectory(prefix="edits-") as scratch:
            self.write(scratch, kept_proofs)
            flags = ["--jobs", "1", "--allow-holes", *(word for name in only for word in ("--only", name))]
            return checks.check(self.crate, scratch, [*flags, *(["--incremental", work] if work else [])])

    def check(self, work=None):
        """Checks the planted functions of the copy, and those that they call. Returns what was printed."""
        only, kept_proofs = [function.spelled for function in self.functions.values()], set()
        status, said = self.check_once(work, kept_proofs, only)
        # rattle may spell the path of a function of a trait in another way
        unknown = {plain(found.split("/")) for found in NO_FUNCTION.findall(said)}
        if unknown:
            kept_proofs = unknown
            status, said = self.check_once(work, kept_proofs, only)
        return self.check_once(work, kept_proofs, [])[1] if status == 2 else said


def without_body(lines):
    """Returns as many lines of the function with another body, if they are in rt fmt's layout: a body stands between lines as far
    in as the head."""
    head = next((number for number, line in enumerate(lines) if FUNCTION.match(line)), None)
    if head is None:
        # an edit ends a comment at the head
        return lines
    inner = re.match(" *", lines[head])[0]
    opens = (number for number, line in enumerate(lines) if number >= head and re.fullmatch(rf"{inner}\S.*{{|{inner}{{", line))
    first = next(opens, None)
    if first is None or lines[-1] != f"{inner}}}" or re.search(r"\bconst fn\b", lines[head]):
        return lines
    return [*lines[: first + 1], f"{inner}    {NO_BODY}", *[""] * (len(lines) - first - 3), lines[-1]]


class Report:
    """The lines that a check of planted edits printed: verdicts by function, goals that it left open, and answers that are not proofs."""

    def __init__(self, planted, work=None):
        self.lines, self.functions, self.verdicts = planted.check(work).split("\n"), planted.functions, {}
        for found in filter(None, map(VERDICT.match, self.lines)):
            self.verdicts[plain(found[1].split("::")[1:])] = found[2]
        for function in self.functions.values():
            function.find(self.verdicts)
        self.goals = [found for found in map(GOAL.match, self.lines) if found]
        self.answers = [found for found in map(ANSWER.match, self.lines) if found]

    def uncompiled(self):
        """Returns the edits whose bodies do not compile, for which no other was checked either."""
        lines = [] if self.verdicts else [(found[1], int(found[2])) for found in map(ERROR.match, self.lines) if found]
        has_error = lambda own: any(file == own.file and own.first <= line <= own.last for file, line in lines)
        return [edit for edit, own in self.functions.items() if has_error(own)]

    def proves(self, edit):
        return self.verdicts.get(self.functions[edit].path, "").startswith(PROVED)

    def open_goals(self, edit):
        """Returns the prover's lines on open goals of the edited function."""
        own = self.functions[edit]
        return [found[3] for found in self.goals if found[1] == own.file and own.first <= int(found[2]) <= own.last]

    def refutes(self, edit):
        """Returns whether the prover found a counterexample for a goal of the edited function."""
        return any(REFUTED in said for said in self.open_goals(edit))

    def unfit_answers(self, edit):
        """Returns the prover's lines on answers of the edited function that do not prove their goals, and these goals."""
        found = [it for it in self.answers if plain(it[1].split("/")) == self.functions[edit].path]
        folder = f"{edit.crate.folder}/{answers.folder_of(edit.function.spelled)}"
        goals = [answers.goal_at(f"{folder}/{it[2]}", int(it[3])) for it in found if it[2] == answers.FILE]
        return [it[4] for it in found], set(filter(None, goals))

    def why_unproved(self, edit):
        """Returns why the edit's function is not proved."""
        own = self.functions[edit]
        if own.path not in self.verdicts:
            return next((line for line in self.lines if "error" in line), f"no verdict on {own.spelled}")
        goals = sorted(self.open_goals(edit), key=lambda said: REFUTED not in said)
        return (goals or self.unfit_answers(edit)[0] or [f"its function is {self.verdicts[own.path]}"])[0]

    def judge(self, edit):
        """Notes whether a goal of the edited function is open, and why, or else which of its answers do not prove their goals."""
        edit.is_refused = bool(self.open_goals(edit)) and not self.proves(edit)
        said, edit.unfit = ([], set()) if edit.is_refused else self.unfit_answers(edit)
        edit.misfit = said[0] if said else ""
        edit.is_unproved = any(map(NO_PROOF.search, said))
        edit.said = self.why_unproved(edit)
