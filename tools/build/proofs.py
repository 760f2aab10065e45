"""Proves crates by `rt ci`, on a copy of them, and takes from there what was built."""
import os
import re
import shutil
import subprocess
import tempfile

from build import baseline, built, kit, wrong_bodies
from build.copies import copy_crates
from build.crates import crates, with_those_below
from build.kit import tell

# What rt prints of itself, and not of a check.
OF_RT = re.compile(r"rt: (?!ok; )")
LAST = re.compile(r"(\d+) passed, (\d+) failed")
# The line at which rt begins with a crate, and the last line of a check that proved it.
OF_CHECK = re.compile(r"== (\w+)|(logic=proved .*)")


def verdicts(said):
    """Returns the last line of the prover by the name of each crate that was proved in this run, and not earlier on this machine."""
    found, name = {}, None
    for match in filter(None, (OF_CHECK.fullmatch(line.strip()) for line in said)):
        name = match[1] or name
        if name and match[2]:
            found[name] = match[2]
    return found


def run_rt_ci(copy, is_anew):
    """Runs rt ci in the copy, and prints what rt says of each crate as it is done. Returns how many passed, or None if something failed."""
    how = {"cwd": copy, "env": kit.one_job_each(os.environ), "stdin": subprocess.DEVNULL, "stdout": subprocess.PIPE, "stderr": subprocess.STDOUT}
    said = []
    with subprocess.Popen(["rt", "ci", *["--anew"] * is_anew], text=True, errors="replace", **how) as ran:
        for line in ran.stdout:
            said.append(line)
            if OF_RT.match(line):
                print(line, end="", flush=True)
    last = LAST.fullmatch(said[-1].strip()) if said else None
    if ran.returncode == 0 and last and last[2] == "0":
        for name, line in verdicts(said).items():
            if name in crates(copy):
                built.keep_verdict(crates(copy)[name], line)
        return int(last[1])
    print(*said, sep="")
    print(f"rt ci ended with status {ran.returncode}, and not with 'N passed, 0 failed'", flush=True)
    return None


def prove_copy(copies, is_anew):
    """Proves all crates of a copy, and builds the programs and the library for C. Returns how many passed, or None if something failed."""
    passed = run_rt_ci(next(iter(copies.values())).root, is_anew)
    if passed not in (None, len(copies)):
        print(f"rt ci passed {passed}, and not {len(copies)}")
        return None
    is_well = passed is not None and baseline.build(copies.values(), is_anew)
    return passed if is_well else None


def made(crate):
    """Returns the files below out/ that others than the prover use."""
    if crate.is_static:
        return [f"lib{crate.name}.a"]
    return [crate.name, f"{crate.name}.by-rattle"] if crate.is_program else []


def take(copies):
    """Puts what was built in the copy into the checkout, and notes from which sources."""
    for copied in copies.values():
        out = f"{crates()[copied.name].folder}/out"
        for file in (file for file in made(copied) if os.path.isfile(f"{copied.folder}/out/{file}")):
            os.makedirs(out, exist_ok=True)
            shutil.copy(f"{copied.folder}/out/{file}", f"{out}/.{file}")
            # in one step, since the file may be in use
            os.replace(f"{out}/.{file}", f"{out}/{file}")
            built.note(copied, f"{out}/{file}")


def is_current(crate):
    """Returns whether the crate is a program or a library for C that is built of the sources as they are."""
    files = [f"{crate.folder}/out/{file}" for file in made(crate)[:1]]
    return bool(files) and built.is_built(crate, *files)


def build(names, is_anew):
    """Proves these crates and those below them, and leaves what is built of them in the checkout, if it is not there. Returns whether all
    are proved."""
    some = with_those_below([crates()[name] for name in names if is_anew or not is_current(crates()[name])])
    if not some:
        return True
    tell(f"proving {len(some)} crates, from nothing in half an hour on four cores: {' '.join(crate.name for crate in some)}")
    with tempfile.TemporaryDirectory(prefix="prove-") as scratch:
        copies = copy_crates(some, f"{scratch}/copy")
        is_well = prove_copy(copies, is_anew) is not None
        if is_well:
            take(copies)
    return is_well


def test(names, is_anew):
    """Proves these crates and those below them, and has the prover refuse the wrong bodies of these. Returns how many crates are proved
    and wrong bodies are refused, and how many are not."""
    with tempfile.TemporaryDirectory(prefix="prove-") as scratch:
        copies = copy_crates([crates()[name] for name in names], f"{scratch}/copy")
        edits = wrong_bodies.found_edits([copies[name] for name in names])
        total = sum(map(len, edits.values()))
        passed = prove_copy(copies, is_anew)
        if passed is None:
            return 0, len(copies) + total
        take(copies)
        refused = wrong_bodies.refuse(edits, is_anew) if edits else 0
    return passed + refused, total - refused
