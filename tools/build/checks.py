"""Checks of copies of a crate, by the kit's rattle over the libraries that rt built.

This is what makes the tests quick, and it rests on more of the kit than the commands of rt: on flags of rattle, which its help
names, and on the places of what rt builds. If something is not there, rt does the same, which takes longer.
"""
import os
import subprocess

from build import kit

FLAGS = "--crate-name --extern --antt-project --logic-built --links --jobs --crate-type --incremental --only --allow-holes --cpu".split()


def lacking(crates):
    """Returns which flags of rattle, files of the kit and libraries that rt built below these crates are missing."""
    flags = [f"rattle check {flag}" for flag in FLAGS if flag not in kit.help_of_check()]
    paths = [f"{kit.folder()}/{path}" for path in ("rattle/logic/antt-project.json", "logic_built", "rlibs", "toolchain")]
    paths += [library.rlib() for crate in crates for library in crate.below]
    return [*flags, *[path for path in paths if not os.path.exists(path)]]


def is_plain(crates):
    """Returns whether rt itself does what a check would do for these crates, because something is missing, and says so then."""
    found = lacking(crates)
    if found:
        kit.tell(f"there is no {', no '.join(found[:3])}: rt does it by itself, which takes longer")
    return bool(found)


def check(crate, folder, flags):
    """Checks the copy of the crate in this folder. Returns a status and what was printed."""
    words = [kit.program("rattle"), "check", *crate.check_words(), *flags]
    ran = subprocess.run(words, cwd=folder, stdin=subprocess.DEVNULL, stdout=subprocess.PIPE, stderr=subprocess.STDOUT, errors="replace")
    return ran.returncode, ran.stdout
