"""The crates of a repository, as its crates.txt names them."""
import argparse
import functools
import os

from build.kit import TOP, folder


class Crate:
    """A crate of crates.txt, in the folder crates/ of the repository at `root`."""

    def __init__(self, root, line):
        head, _, uses = line.partition(":")
        self.root, self.line = root, line
        self.name, *words = head.split()
        self.uses, self.is_static = uses.split(), "staticlib" in words
        self.folder = f"{root}/crates/{self.name}"
        self.is_program = os.path.isfile(f"{self.folder}/src/main.rt")
        self.is_library = not self.is_program and not self.is_static
        self.known = {}

    def own_uses(self):
        """Returns the crates of the repository that its line names."""
        return [self.known[name] for name in self.uses if name in self.known]

    def of_kit(self):
        """Returns the libraries of the kit that its line names, and std."""
        return ["std", *[name for name in self.uses if name not in self.known]]

    @functools.cached_property
    def below(self):
        """The crates of the repository that it uses, each after those that it uses itself."""
        found = {}
        for crate in self.own_uses():
            found.update(dict.fromkeys([*crate.below, crate]))
        return list(found)

    def rlib(self):
        """Returns where rt leaves the crate as a built library."""
        return f"{self.folder}/out/rlib/{self.name}.rlib"

    def check_words(self):
        """Returns the arguments by which rattle checks the crate over the built libraries below it."""
        words = ["--crate-name", self.name, f"src/{'main' if self.is_program else 'lib'}.rt"]
        for name in self.of_kit():
            words += ["--extern", f"{name}={folder()}/rlibs/{name}.rlib"]
        words += ["-L", f"dependency={folder()}/rlibs"]
        for crate in self.own_uses():
            words += ["--extern", f"{crate.name}={crate.rlib()}"]
        for crate in self.below:
            words += ["-L", f"dependency={os.path.dirname(crate.rlib())}"]
        words += ["--antt-project", f"{folder()}/rattle/logic/antt-project.json", "--logic-built", f"{folder()}/logic_built"]
        return [*words, "--links", f"{self.name}=", *["--crate-type", "staticlib"] * self.is_static]

    def sources(self):
        """Returns the paths of the files that a check of the crate reads, below its folder."""
        found = [f"{at}/{name}" for part in ("src", "specs", "proofs") for at, _, names in os.walk(f"{self.folder}/{part}") for name in names]
        return sorted(os.path.relpath(path, self.folder) for path in found)

    def modules(self):
        """Returns the paths of its source files, below its folder."""
        return [path for path in self.sources() if path.endswith(".rt")]

    def lines(self):
        """Returns how many lines the crate has: a measure of the work that it makes."""
        count = 0
        for path in self.sources():
            with open(f"{self.folder}/{path}", "rb") as file:
                count += file.read().count(b"\n")
        return count


@functools.cache
def crates(root=TOP):
    """Returns the crates of the repository by their names, each after those that it uses."""
    with open(f"{root}/crates.txt", encoding="utf-8") as file:
        lines = [line.partition("#")[0].strip() for line in file]
    known = {crate.name: crate for crate in (Crate(root, line) for line in lines if line)}
    for crate in known.values():
        crate.known = known
    return {crate.name: crate for crate in sorted(known.values(), key=lambda crate: len(crate.below))}


def with_those_below(named):
    """Returns these crates and those that they use, each after those that it uses."""
    return list(dict.fromkeys(crate for top in named for crate in [*top.below, top]))


def crate_name(name):
    """Returns the name of a crate, for an argument parser; the error for any other has their names."""
    names = list(crates())
    if name not in names:
        raise argparse.ArgumentTypeError(f"no crate {name}; the crates are {' '.join(names)}")
    return name
