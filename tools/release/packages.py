"""The packages of Python, Go and Rust, each with the library in it."""
import json
import os
import re
import subprocess
import sys
import time

from build.kit import TOP
from release import elf
from release.files import File, file, read, write_tar, write_zip

# The oldest glibc that a wheel's tag names here: pip of older systems knows no tag of the form.
OLDEST = "2.17"
CGO = re.compile(rb"#cgo pkg-config: jwtproved\b")
INSIDE = b"#cgo CFLAGS: -I${SRCDIR}\n// #cgo LDFLAGS: ${SRCDIR}/libjwtproved.a"
INSIDE_OF_BLOCK = b"#cgo CFLAGS: -I${SRCDIR}\n#cgo LDFLAGS: ${SRCDIR}/libjwtproved.a"
CRATE = "packages/rust/jsonwebtoken-proved"


def platform(glibc):
    """Returns the platform of a wheel whose files need this glibc (PEP 600)."""
    return f"manylinux_{max(glibc, OLDEST, key=elf.numbers).replace('.', '_')}_x86_64"


def build_wheel(it, folder, name):
    """Has the package's own build backend write a wheel for the platform. Returns its path."""
    words = [sys.executable, "-Bc", "import backend, sys; print(backend.build_wheel(sys.argv[1], {'platform': sys.argv[2]}))", folder, name]
    environment = {**os.environ, "PYTHONPATH": f"{TOP}/packages/python/build_backend", "SOURCE_DATE_EPOCH": str(it.stamp)}
    ran = subprocess.run(words, cwd=f"{TOP}/packages/python", env=environment, stdin=subprocess.DEVNULL, stdout=subprocess.PIPE, text=True, check=True)
    return f"{folder}/{ran.stdout.split()[-1]}"


def glibc_of_wheel(it, path):
    """Returns the glibc that the shared libraries in a wheel need."""
    folder = f"{it.scratch}/wheel"
    subprocess.run([sys.executable, "-m", "zipfile", "-e", path, folder], check=True)
    return elf.glibc(*(f"{at}/{name}" for at, _, names in os.walk(folder) for name in names if name.endswith(".so")))


def wheel(it, folder):
    """Writes the wheel, whose tag names the glibc that it needs."""
    found = glibc_of_wheel(it, build_wheel(it, it.scratch, "linux_x86_64"))
    build_wheel(it, folder, platform(found))


def over_the_library_inside(source):
    """Returns a file of Go's package that is linked to the static library next to it."""
    before = source.partition(b"#cgo pkg-config")[0].rpartition(b"\n")[2]
    return CGO.sub(INSIDE if before else INSIDE_OF_BLOCK, source)


def go_module(it, folder):
    """Writes the module as a module proxy has it, in a folder go/."""
    path = re.search(r"^module (\S+)", read(f"{TOP}/packages/go/go.mod").decode(), re.M)[1]
    version = f"v{it.version}"
    # the examples, and what measures, are modules of their own
    names = [name for name in it.tracked(f"{TOP}/packages/go") if not name.endswith("_test.go") and not name.startswith(("examples/", "speed/"))]
    made = {name: file(f"{TOP}/packages/go/{name}") for name in names}
    made |= {name: File(over_the_library_inside(it_.content)) for name, it_ in made.items() if name.endswith(".go")}
    made |= {"LICENSE": file(f"{TOP}/LICENSE"), "libjwtproved.a": file(it.static), "jwtproved.h": file(f"{TOP}/packages/c/include/jwtproved.h")}
    at = f"{folder}/go/{path}/@v"
    os.makedirs(at)
    write_zip(f"{at}/{version}.zip", {f"{path}@{version}/{name}": found for name, found in made.items()}, it.stamp)
    stamp = time.strftime("%Y-%m-%dT%H:%M:%SZ", time.gmtime(it.stamp))
    for ending, content in ((".mod", read(f"{TOP}/packages/go/go.mod")), (".info", json.dumps({"Version": version, "Time": stamp}).encode())):
        with open(f"{at}/{version}{ending}", "wb") as opened:
            opened.write(content)
    with open(f"{at}/list", "w", encoding="ascii") as opened:
        opened.write(f"{version}\n")


def rust_crate(it, folder):
    """Writes the crate, whose build.rs links the static library in it."""
    names = [name for name in it.tracked(f"{TOP}/{CRATE}") if not name.startswith("tests/") and name != ".gitignore"]
    made = {name: file(f"{TOP}/{CRATE}/{name}") for name in names}
    made |= {"LICENSE": file(f"{TOP}/LICENSE"), "build.rs": file(f"{TOP}/tools/release/build.rs"), "native/libjwtproved.a": file(it.static)}
    name = f"jsonwebtoken-proved-{it.version}"
    write_tar(f"{folder}/{name}.crate", {f"{name}/{path}": found for path, found in made.items()}, it.stamp)
