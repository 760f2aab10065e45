"""PROOF.txt: what was proved of a release, by what, and what has to be believed. Of a draft that was not proved it says only this."""
import hashlib
import os
import re

from build import baseline, built, c_library, kit
from build.crates import crates, with_those_below
from release import elf
from release.files import read
from release.sources import PROGRAMS

TRUSTED = """\
Trusted, and proved by nothing here:
- the prover and the statements of the kit's libraries; docs/REVIEWING.md in the repository says how the contracts are read
- the compiler that made machine code of what was proved (LLVM), the linker, and those that compiled the packages over the library
- the C library, the C code of the kit that is named below, the first code of the commands (tools/build/start.c), the system and the processor
- that a signature can't be forged, and that the constants of the curves are those of the standards
What was only tested: the packages over the library, and what docs/RULES.md in the repository names so.
"""
NOT_PROVED = "not proved\n"
DRAFT = "THIS IS A DRAFT, AND NO RELEASE: neither that the sources are those of the commit nor that the gate has passed was tested.\n"


def of_prover(crate):
    """Returns the last line of the prover for a crate, or what is known instead."""
    return built.verdict_of(crate) or "proved, by a run whose last line is not kept"


def of_kit():
    """Returns what of the kit is inside the artifacts, as lines."""
    parts = {"libjwtproved": (c_library.CRATE, ("liblibc_c.a",)), **{name: (name, baseline.ARCHIVES) for name in PROGRAMS}}
    lines = []
    for name, (crate, files) in parts.items():
        sums = [f"{file} (sha256 {hashlib.sha256(read(f'{kit.folder()}/c/{file}')).hexdigest()})" for file in files]
        libraries = ", ".join(kit.libraries(crates()[crate]))
        lines.append(f"- {name}: compiled code of {libraries}, as far as it is called; the C code of {', '.join(sums)}")
    return lines


def of_gate(it):
    if it.is_draft:
        return [DRAFT.strip()]
    lines = [f"The gate (./run_tests) passed {it.noted['passed']} tests of this tree, and 0 failed."]
    return lines + [f"- {line}" for line in it.noted["left_out"]]


def processors(crate):
    """Returns for which processors a crate is compiled, as the last line of the prover says."""
    verdict = of_prover(crate)
    found = re.search(r" cpu=(\S+)", verdict)
    return found[1] if found else "each x86-64" if verdict.startswith("logic=proved ") else "processors that are not noted"


def files(it):
    """Returns the files that were built of what is proved, with what they need, as lines."""
    of_library = crates()[c_library.CRATE]
    found = [(it.static, of_library), (it.shared, of_library), *((it.program(name), crates()[name]) for name in PROGRAMS)]
    lines = []
    for path, crate in found:
        needs = "" if path == it.static else f", glibc {elf.glibc(path)}"
        lines.append(f"{hashlib.sha256(read(path)).hexdigest()}  {os.path.basename(path)}: {processors(crate)}{needs}")
    return lines


def is_proved(compiled):
    """Returns whether the prover's last line is kept for each of these crates, which are compiled once those below them are proved."""
    return all(map(built.verdict_of, compiled))


def write(it):
    """Returns the text."""
    compiled = [crates()[c_library.CRATE], *(crates()[name] for name in PROGRAMS)]
    if it.is_draft and not is_proved(compiled):
        return NOT_PROVED
    proved = with_those_below(compiled)
    lines = [
        f"jwtproved {it.version} for Linux on x86-64",
        "",
        f"commit {it.commit}",
        f"proved by {kit.version()}",
        *of_gate(it),
        "",
        "The crates, each with the last line of the prover:",
        *(f"- {crate.name}: {of_prover(crate)}" for crate in proved),
        "",
        TRUSTED,
        "Of the kit, inside the artifacts:",
        *of_kit(),
        "",
        "The files that were built of what is proved, by SHA-256, with what they need:",
        *files(it),
    ]
    return "\n".join(lines) + "\n"
