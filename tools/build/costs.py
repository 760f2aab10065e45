"""Shows which functions of a crate take longest to prove, and which kinds of modules the prover spends its time on.

The crate is checked from nothing, with one job, over the libraries below it as they are built. The prover writes a file for each
module that it is done with, so the times of these files tell how long each took; a function has some twenty modules.
"""
import collections
import os
import re
import tempfile
import time

from build import checks
from build.crates import crates

# The name of a module's file: its library, its path, and what it has of the function or type at that path.
MODULE = re.compile(r"Rattle-\w+-(?:proofs|specs)\.(.+)\.(\w+)\.oantt")


def times_below(folder, start):
    """Returns the names of the files in a folder, in the order in which they were written, and the seconds that each took."""
    files = [(os.stat(f"{at}/{name}").st_mtime, name) for at, _, names in os.walk(folder) for name in names]
    last = start
    for written, name in sorted(files):
        yield name.replace(".decls", ""), written - last
        last = written


def check(crate):
    """Checks the crate. Returns a status, what was printed, and the seconds by function and by kind of module."""
    of_functions, of_kinds = collections.Counter(), collections.Counter()
    with tempfile.TemporaryDirectory(prefix="costs-") as kept:
        start = time.time()
        status, said = checks.check(crate, crate.folder, ["--jobs", "1", "--incremental", kept])
        for name, seconds in times_below(kept, start):
            found = MODULE.fullmatch(name)
            of_functions[found[1] if found else "(the crate as a whole)"] += seconds
            of_kinds[found[2] if found else "(the crate as a whole)"] += seconds
    return status, said, of_functions, of_kinds


def show(title, seconds, most):
    print(f"{title}:")
    for name, spent in seconds.most_common(most):
        print(f"{spent:8.1f}  {name}")


def show_costs(given):
    """Prints what the functions of a crate took. Returns whether the crate is proved."""
    crate = crates()[given.crate]
    status, said, of_functions, of_kinds = check(crate)
    if status:
        print(said)
    show("seconds by kind of module", of_kinds, 8)
    show("seconds by function or type", of_functions, given.most)
    print(f"{crate.name}: {sum(of_functions.values()):.1f} s for {len(of_functions)} functions and types")
    return not status
