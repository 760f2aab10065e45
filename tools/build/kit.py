"""The Rattle kit, as this repository uses it: by the documented commands of `rt`, and by the kit's other programs by their path.

Nothing of the kit is imported. Kits that print the same line of `rt version` differ inside; `tests/programs/kits` tries several.
"""
import functools
import os
import re
import shutil
import subprocess
import sys

TOP = os.path.dirname(os.path.dirname(os.path.dirname(os.path.realpath(__file__))))
# The logic by which everything here was proved. A kit with another logic is used all the same: the verdict is then that kit's.
LOGIC = "dac8208d650f15bf"
MISSING = "the Rattle kit is missing: put the folder bin of a kit on the PATH, or use a release that somebody built, as docs/INSTALL.md says"


def stop(why):
    print(f"{os.path.basename(sys.argv[0])}: {why}", file=sys.stderr)
    sys.exit(2)


def tell(text):
    print(text, file=sys.stderr, flush=True)


@functools.cache
def folder():
    """Returns the kit's folder; ends the program if there is no kit."""
    found = shutil.which("rt") or stop(MISSING)
    # rt may be a link, or a script that runs it; and another program may have the same name
    for find in (lambda: os.path.dirname(os.path.realpath(found)), lambda: f"{os.path.dirname(text_of_rt('doc').strip())}/bin"):
        path = find()
        if os.path.isfile(f"{path}/rattle"):
            return os.path.dirname(path)
    return stop(MISSING)


def program(name):
    """Returns the path of a program of the kit."""
    return f"{folder()}/bin/{name}"


def uses(library):
    """Returns the names of the libraries that one of the kit uses."""
    with open(f"{folder()}/rlibs/{library}.rlib/format", encoding="utf-8") as file:
        return re.findall(r"^dep (\w+)$", file.read(), re.M)


def libraries(crate):
    """Returns the names of the libraries of the kit below a crate, sorted."""
    left = [*dict.fromkeys(name for part in [*crate.below, crate] for name in part.of_kit())]
    for name in left:
        left += [use for use in uses(name) if use not in left]
    return sorted(left)


def rt(*words, **how):
    """Runs a command of rt. Returns what `subprocess.run` does."""
    return subprocess.run(["rt", *words], **how)


def text_of_rt(*words):
    """Returns what a command of rt says: some kits' rt prints its help as an error."""
    how = {"stdin": subprocess.DEVNULL, "stdout": subprocess.PIPE, "stderr": subprocess.STDOUT, "text": True, "errors": "replace"}
    return rt(*words, **how).stdout


@functools.cache
def version():
    return text_of_rt("version").strip()


def tell_logic():
    """Says so if the kit has another logic than the one by which all was proved; the verdict is then this kit's."""
    folder()
    own = version().rpartition("logic ")[2].strip() or "it does not say which"
    if own != LOGIC:
        tell(f"note: everything here was proved by logic {LOGIC}, and this kit has another: {own}; the verdict is this kit's")


@functools.cache
def help_of_check():
    """Returns the help of rattle's check, which names its flags."""
    ran = subprocess.run([program("rattle"), "check", "--help"], stdin=subprocess.DEVNULL, capture_output=True, text=True)
    return ran.stdout


def processors():
    return len(os.sched_getaffinity(0))


def free_memory():
    """Returns the memory in bytes that is free."""
    with open("/proc/meminfo", encoding="ascii") as file:
        sizes = dict(line.split(":") for line in file)
    return 1024 * int(sizes["MemAvailable"].split()[0])


def checks_at_once():
    """Returns how many checks of crates this machine can run at once."""
    most_memory = 4_000_000_000
    return max(1, min(processors(), free_memory() // most_memory))


def one_job_each(environment):
    """Returns the environment in which rt gives each check one job: several jobs of one check take a sixth more time of the processors
    in all."""
    return {"RT_JOBS": str(checks_at_once()), **environment}
