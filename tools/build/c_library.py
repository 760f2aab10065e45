"""Builds the library for C, and all that calls it: out/libjwtproved.a to link, and out/libjwtproved.so to load, each with the parts of
the kit that it needs. Both export the names jwt_* alone. The static library is linked to a single object first, so that a program can
link it next to another library of the kit."""
import os
import re
import shutil
import subprocess
import tempfile

from build import built, kit
from build.crates import crates
from build.kit import TOP, stop, tell

CRATE = "jwt_c"
# The number of the soname, as the header says: it grows if a program that was linked with an earlier library would not run with this one.
SONAME = 1
OUT = f"{TOP}/out"


def version():
    with open(f"{TOP}/packages/c/include/jwtproved.h", encoding="utf-8") as file:
        return re.search(r'^#define JWT_VERSION "(.*)"$', file.read(), re.M)[1]


def names():
    """Returns the paths of the static library, and of the shared one with its other names."""
    number = version()
    shared = f"{OUT}/libjwtproved.so"
    return f"{OUT}/libjwtproved.a", f"{shared}.{number}", [f"{shared}.{SONAME}", shared]


def is_current():
    """Returns whether all of these files are built from the sources as they are."""
    static, shared, others = names()
    return built.is_built(crates()[CRATE], static, shared, *others)


def link(library, compiler):
    """Links the library for C from the static library of the crate. Returns whether that went well."""
    static, shared, others = names()
    os.makedirs(OUT, exist_ok=True)
    with tempfile.TemporaryDirectory(dir=OUT) as scratch:
        whole, linked, exports = f"{scratch}/jwtproved.o", f"{scratch}/shared", f"{scratch}/exports.map"
        # the version of the names keeps them apart from those of another library in the same process
        with open(exports, "w", encoding="utf-8") as file:
            file.write(f"JWTPROVED_{SONAME} {{ global: jwt_*; local: *; }};\n")
        commands = [
            ["ld", "-r", "-o", whole, "--whole-archive", library, "--no-whole-archive", f"{kit.folder()}/c/liblibc_c.a"],
            ["objcopy", "--wildcard", "--keep-global-symbol=jwt_*", whole],
            ["ar", "rcsD", f"{scratch}/static", whole],
            [compiler, "-shared", "-o", linked, f"-Wl,-soname,libjwtproved.so.{SONAME}", "-Wl,-s,-z,relro,-z,now", f"-Wl,--version-script={exports}", whole],
        ]
        if any(subprocess.run(command).returncode for command in commands):
            return False
        os.replace(f"{scratch}/static", static)
        os.replace(linked, shared)
    # names of one file, and no symbolic links: rt ci refuses these in a checkout
    for other in others:
        if os.path.lexists(other):
            os.remove(other)
        os.link(shared, other)
    return True


def make(prove):
    """Builds the library for C if its sources have changed; `prove` proves its crate. Returns whether it is built."""
    compiler, crate = os.environ.get("CC", "cc"), crates()[CRATE]
    if is_current():
        return True
    if not shutil.which(compiler):
        stop(f"there is no C compiler {compiler}; the variable CC names one")
    library = f"{crate.folder}/out/lib{CRATE}.a"
    kit.tell_logic()
    if not built.is_built(crate, library):
        tell("proving and building the library for C: half an hour on four cores, or minutes if rt kept the proofs")
        if not prove():
            return False
    if not link(library, compiler):
        return False
    if not built.is_built(crate, library):
        tell("the sources were edited while the library for C was built: it is not of them; build it again")
        return False
    static, shared, others = names()
    built.note(crate, static, shared, *others)
    return True
