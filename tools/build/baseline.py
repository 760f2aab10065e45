"""Builds the library for C, and the programs of a release, for every x86-64, by rattle over the libraries that rt ci built below them.

rt ci builds no library for C. It builds programs for x86-64-v2, and links them so that they ask for glibc 2.34; here a program takes the
place of that one, linked with start.c so that it asks for what its calls need. A library's proof holds for every processor, and that of
a program or of the library for C for one: rattle proves these alone again, as jwt's `main`, over the proved libraries. What it made is
kept, with the prover's last line.

The program of rt ci can't be changed to ask for an older glibc: before 2.34 nothing would call the constructor that takes its arguments.
"""
import base64
import concurrent.futures
import os
import re
import shutil
import subprocess

from build import built, checks, kit
from build.kept import Store, key_of
from build.kit import tell

CPU = "x86-64"
PROGRAMS = ("jwt", "jwt_tool")
START = f"{os.path.dirname(os.path.realpath(__file__))}/start.c"
# What is linked to a program, besides the C library.
ARCHIVES = ("libos_c.a", "liblibc_c.a")
# What runs before main or after it, and is called by neither the loader nor start.c.
AROUND_MAIN = re.compile(r"\s(\.(?:ctors|dtors|init))\s")


def key(crate):
    """Returns the sum of all that is compiled, and of what compiles it."""
    return key_of(built.sum_of_means(crate), built.sum_of_file(f"{kit.folder()}/toolchain/bin/clang"), built.sum_of_sources(crate), CPU)


def proved_earlier(crate, to, sum_of_all):
    """Writes what an earlier run made of the same. Returns whether there is such."""
    verdict, _, code = (Store(f"compiled-{crate.name}").find(sum_of_all) or "").partition("\n")
    if verdict:
        with open(to, "wb") as file:
            file.write(base64.b64decode(code))
        built.keep_verdict(crate, verdict)
    return bool(verdict)


def compile_crate(crate, to, is_anew):
    """Proves the crate, and compiles it to the file `to`. Returns whether that went well."""
    sum_of_all = key(crate)
    if not is_anew and proved_earlier(crate, to, sum_of_all):
        return True
    words = [*crate.check_words(), "--cpu", CPU, "--jobs", "1", "--toolchain", f"{kit.folder()}/toolchain", "--backend", "llvm", "-o", to]
    tell(f"compiling {crate.name} for each x86-64, for which it is proved once more")
    how = {"cwd": crate.folder, "stdin": subprocess.DEVNULL, "stdout": subprocess.PIPE, "stderr": subprocess.STDOUT}
    ran = subprocess.run([kit.program("rattle"), "build", *words], text=True, errors="replace", **how)
    verdict = re.search(r"^logic=proved .*", ran.stdout, re.M)
    if ran.returncode or not verdict:
        print(ran.stdout)
        return False
    built.keep_verdict(crate, verdict[0])
    with open(to, "rb") as file:
        Store(f"compiled-{crate.name}").keep(sum_of_all, f"{verdict[0]}\n{base64.b64encode(file.read()).decode()}")
    return True


def link(crate, compiled):
    """Links a program instead of the one that rt ci linked. Returns whether that went well."""
    to = f"{crate.folder}/out/{crate.name}"
    archives = [f"{kit.folder()}/c/{name}" for name in ARCHIVES]
    flags = ["-O2", "-fPIE", "-fno-stack-protector", "-nostartfiles", "-pie", "-Wl,--gc-sections,--build-id=none,-z,relro,-z,now,-z,noexecstack"]
    words = [os.environ.get("CC", "cc"), *flags, "-o", f"{to}.linked", START, compiled, *archives]
    if subprocess.run(words, stdin=subprocess.DEVNULL).returncode:
        return False
    sections = subprocess.run(["objdump", "-h", f"{to}.linked"], stdout=subprocess.PIPE, text=True, check=True).stdout
    found = AROUND_MAIN.search(sections)
    if found:
        tell(f"{crate.name} has a section {found[1]}, whose functions would not be called")
        return False
    os.replace(f"{to}.linked", to)
    return True


def build_library(crate, is_anew):
    """Builds the static library of the crate. Returns whether it is built."""
    if checks.is_plain([crate]):
        return kit.rt("lib", cwd=crate.folder, stdin=subprocess.DEVNULL).returncode == 0
    return compile_crate(crate, f"{crate.folder}/out/lib{crate.name}.a", is_anew)


def build_program(crate, is_anew):
    """Builds a program, or leaves the one that rt ci built if this can't be done here, and says so. Returns whether it is built."""
    missing = [name for name in (os.environ.get("CC", "cc"), "objdump") if not shutil.which(name)]
    missing += [name for name in ARCHIVES if not os.path.isfile(f"{kit.folder()}/c/{name}")]
    if missing or checks.is_plain([crate]):
        tell(f"{crate.name} is built for x86-64-v2 and glibc 2.34, and not for each x86-64 and older ones{', without ' * bool(missing)}{' and '.join(missing)}")
        return True
    compiled = f"{crate.folder}/out/{crate.name}.every.o"
    return compile_crate(crate, compiled, is_anew) and link(crate, compiled)


def build(crates, is_anew):
    """Builds those of these proved crates that are the library for C or a program of a release. Returns whether all are built."""
    some = [(build_library, it) for it in crates if it.is_static] + [(build_program, it) for it in crates if it.name in PROGRAMS]
    with concurrent.futures.ThreadPoolExecutor(kit.checks_at_once()) as pool:
        return all(list(pool.map(lambda it: it[0](it[1], is_anew), some)))
