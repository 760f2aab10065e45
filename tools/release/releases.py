"""Builds all artifacts of a release, in a folder that is there only if all are built."""
import hashlib
import os
import shutil
import tempfile

from build.kit import TOP, stop, tell
from release import debs, packages, proof, sources, unix
from release.files import read, write_tar

OUT = f"{TOP}/out/release"


def tarball(it, text, folder):
    name = f"jwtproved-{it.version}-{sources.PLATFORM}"
    write_tar(f"{folder}/{name}.tar.gz", {f"{name}/{path}": made for path, made in unix.tarball(it, text).items()}, it.stamp)


def write_sums(folder):
    """Writes the sums of all files below the folder, as sha256sum -c reads them."""
    paths = sorted(os.path.relpath(f"{at}/{name}", folder) for at, _, names in os.walk(folder) for name in names)
    with open(f"{folder}/SHA256SUMS", "w", encoding="utf-8") as file:
        file.writelines(f"{hashlib.sha256(read(f'{folder}/{path}')).hexdigest()}  {path}\n" for path in paths)


def build(it, folder):
    """Builds all artifacts in the folder."""
    text = proof.write(it)
    with open(f"{folder}/PROOF.txt", "w", encoding="utf-8") as file:
        file.write(text)
    tarball(it, text, folder)
    for name in debs.PACKAGES:
        debs.write(it, name, text, folder)
    packages.wheel(it, folder)
    packages.go_module(it, folder)
    packages.rust_crate(it, folder)
    write_sums(folder)


def build_anew(to, is_draft):
    """Replaces this folder by a new one."""
    os.makedirs(os.path.dirname(to), exist_ok=True)
    with tempfile.TemporaryDirectory(prefix=".release-", dir=os.path.dirname(to)) as scratch:
        os.mkdir(f"{scratch}/made", 0o755)
        build(sources.Sources(scratch, is_draft), f"{scratch}/made")
        shutil.rmtree(to, ignore_errors=True)
        os.rename(f"{scratch}/made", to)
    tell(f"the release is in {to}")


def release(version):
    sources.refuse_unless_passed(version)
    build_anew(OUT, False)


def draft(folder):
    """Builds all artifacts of the files that are built now."""
    if os.path.lexists(folder):
        stop(f"{folder} is there already")
    lacking = sources.lacking()
    if lacking:
        stop(lacking)
    build_anew(folder, True)
