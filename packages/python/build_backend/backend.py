"""Builds the wheel (PEP 517), with the shared library in it, which tools/prove library proves and builds if it has changed.

The wheel is a zip of a few files, so a build needs no other package and no network. With Python's headers and a C compiler, the calls
that verify are compiled too (_fast.c); without, ctypes makes them.
"""
import base64
import glob
import hashlib
import os
import subprocess
import sys
import sysconfig
import tempfile
import time
import tomllib
import zipfile

HERE = os.path.dirname(os.path.dirname(os.path.abspath(__file__)))
TOP = os.path.dirname(os.path.dirname(HERE))
PACKAGE = "jwtproved"


class UnsupportedOperation(Exception):
    """A source distribution is not made: the library is proved in a checkout of the repository."""


def _read(path):
    with open(path, "rb") as file:
        return file.read()


def _library():
    """Returns the bytes of the shared library."""
    build = f"{TOP}/tools/prove"
    if not os.path.isfile(build):
        sys.exit(f"{build} is missing: the package is built in a checkout of its repository, which proves the library, or installed from a wheel")
    # it says how long it takes, and, if it can't, why
    status = subprocess.run([build, "library"]).returncode
    if status:
        sys.exit(status)
    return _read(f"{TOP}/out/libjwtproved.so")


def _fast():
    """Returns the bytes of the compiled module, or None if it can't be compiled."""
    include = sysconfig.get_path("include")
    compiler = os.environ.get("CC", "cc")
    if not os.path.isfile(f"{include}/Python.h"):
        return None
    with tempfile.TemporaryDirectory() as scratch:
        made = f"{scratch}/_fast.so"
        # the stable interface of Python 3.11, which later versions load too
        words = [compiler, "-O2", "-shared", "-fPIC", "-DPy_LIMITED_API=0x030b0000", f"-I{include}", f"-I{TOP}/packages/c/include"]
        words += [f"{HERE}/{PACKAGE}/_fast.c", "-o", made]
        try:
            subprocess.run(words, check=True)
        except (OSError, subprocess.CalledProcessError):
            return None
        return _read(made)


def _metadata(project):
    extras = project["optional-dependencies"]
    lines = [
        "Metadata-Version: 2.1",
        f"Name: {project['name']}",
        f"Version: {project['version']}",
        f"Summary: {project['description']}",
        f"Requires-Python: {project['requires-python']}",
        f"License: {project['license']['text']}",
        *(f"Classifier: {it}" for it in project["classifiers"]),
        *(f"Provides-Extra: {it}" for it in extras),
        *(f'Requires-Dist: {it}; extra == "{name}"' for name, packages in extras.items() for it in packages),
        "Description-Content-Type: text/markdown",
    ]
    return "\n".join(lines).encode() + b"\n\n" + _read(f"{HERE}/{project['readme']}")


def _record(files, name):
    """Returns the list of the files with their sums."""
    lines = []
    for path, content in files.items():
        digest = base64.urlsafe_b64encode(hashlib.sha256(content).digest()).rstrip(b"=").decode()
        lines.append(f"{path},sha256={digest},{len(content)}")
    return "\n".join([*lines, f"{name},,"]).encode() + b"\n"


def _write_zip(path, files):
    """Writes the files to an archive that depends on them and on SOURCE_DATE_EPOCH alone, if that is set."""
    moment = time.gmtime(int(os.environ.get("SOURCE_DATE_EPOCH", time.time())))[:6]
    with zipfile.ZipFile(path, "w", zipfile.ZIP_DEFLATED) as archive:
        for name, content in files.items():
            entry = zipfile.ZipInfo(name, moment)
            entry.external_attr = 0o100644 << 16
            archive.writestr(entry, content, zipfile.ZIP_DEFLATED)


def build_wheel(wheel_directory, config_settings=None, metadata_directory=None):
    """Writes the wheel, and returns its name. It is for Python 3.11 and later ones, and for this machine's platform, or for that of
    the setting `platform`."""
    with open(f"{HERE}/pyproject.toml", "rb") as file:
        project = tomllib.load(file)["project"]
    fast = _fast()
    platform = (config_settings or {}).get("platform") or sysconfig.get_platform().replace("-", "_").replace(".", "_")
    tag = f"{'cp311-abi3' if fast else 'py3-none'}-{platform}"
    info = f"{PACKAGE}-{project['version']}.dist-info"
    files = {os.path.relpath(it, HERE): _read(it) for it in sorted(glob.glob(f"{HERE}/{PACKAGE}/*.py"))}
    files[f"{PACKAGE}/py.typed"] = b""
    files[f"{PACKAGE}/libjwtproved.so"] = _library()
    if fast:
        files[f"{PACKAGE}/_fast.abi3.so"] = fast
    files[f"{info}/METADATA"] = _metadata(project)
    files[f"{info}/WHEEL"] = f"Wheel-Version: 1.0\nGenerator: {PACKAGE}\nRoot-Is-Purelib: false\nTag: {tag}\n".encode()
    files[f"{info}/LICENSE"] = _read(f"{TOP}/LICENSE")
    files[f"{info}/RECORD"] = _record(files, f"{info}/RECORD")
    name = f"{PACKAGE}-{project['version']}-{tag}.whl"
    _write_zip(os.path.join(wheel_directory, name), files)
    return name


def build_sdist(sdist_directory, config_settings=None):
    raise UnsupportedOperation(UnsupportedOperation.__doc__)
