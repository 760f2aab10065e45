"""What a release is made of: the checkout, its commit, and what the gate built."""
import os
import shutil
import subprocess
import sysconfig

from build import baseline, built, c_library, gate, kit
from build.crates import crates
from build.kit import stop

PROGRAMS = baseline.PROGRAMS
PLATFORM = "linux-x86_64"
# The programs and files that a build of the artifacts needs, besides the kit.
TOOLS = ("cc", "dpkg-deb", "make", "objdump", "pkg-config", "strip")
FILES = ("/usr/share/nginx/src/configure", f"{sysconfig.get_path('include')}/Python.h")


def program(name):
    return f"{crates()[name].folder}/out/{name}"


class Sources:
    """The commit, and the files that were built, for one release."""

    def __init__(self, scratch, is_draft):
        self.scratch, self.is_draft = scratch, is_draft
        self.version, self.noted = c_library.version(), gate.read()
        self.commit, stamp, self.maker = gate.git("log", "-1", "--format=%H%n%ct%n%an <%ae>").split("\n")
        self.stamp = int(stamp)
        self.static, self.shared, _ = c_library.names()

    def program(self, name):
        """Returns the path of a program without the names of its functions, which the library does not have either."""
        path = f"{self.scratch}/programs/{name}"
        if not os.path.isfile(path):
            os.makedirs(os.path.dirname(path), exist_ok=True)
            subprocess.run(["strip", "-o", path, program(name)], check=True)
        return path

    def tracked(self, folder):
        """Returns the paths, below the folder, of the files in it that git knows."""
        return gate.git("-C", folder, "ls-files").split("\n")


def missing_tools():
    """Returns what is missing here to build all artifacts from what is proved."""
    missing = [name for name in TOOLS if not shutil.which(name)] + [path for path in FILES if not os.path.isfile(path)]
    return missing + ["repository of git"] * (not gate.git("rev-parse", "HEAD"))


def lacking():
    """Returns why the artifacts can't be built here, or None."""
    missing = [name for name in PROGRAMS if not built.is_built(crates()[name], program(name))]
    missing += [] if c_library.is_current() else ["the library for C"]
    if missing:
        return f"no proved build of the sources as they are: {', '.join(missing)}; ./run_tests makes them"
    tools = missing_tools()
    return f"the packages can't be built, since there is no {', no '.join(tools)}" if tools else None


def refuse_unless_passed(version):
    """Ends the program, with status 2, if there is no release to build."""
    own, tree, noted = c_library.version(), gate.tree(), gate.read()
    if version != own:
        stop(f"there is no version {version}: packages/c/include/jwtproved.h has {own}")
    if not tree:
        stop("the checkout has changes that are not committed, or is not a repository of git; a release is of a commit")
    if noted.get("tree") != tree or "passed" not in noted:
        stop("the gate has not passed for this commit in this checkout; ./run_tests is the gate")
    if noted["kit"] != kit.version():
        stop(f"the gate passed with another kit: {noted['kit']}")
    why = lacking()
    if why:
        stop(why)
