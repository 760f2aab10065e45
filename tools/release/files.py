"""Files of an artifact, and archives of them that depend on nothing else: neither on the clock, nor on who makes them."""
import contextlib
import gzip
import io
import os
import tarfile
import time
import zipfile
from typing import NamedTuple


class File(NamedTuple):
    content: bytes = b""
    mode: int = 0o644
    # the path to which this is a symbolic link
    link: str = ""


def read(path):
    with open(path, "rb") as file:
        return file.read()


def file(path, mode=0o644):
    return File(read(path), mode)


def text(content, mode=0o644):
    return File(content.encode(), mode)


def zipped(content):
    return gzip.compress(content, 9, mtime=0)


def write_folder(folder, files, stamp):
    """Writes files, by their paths below the folder, with this time."""
    for path, made in sorted(files.items()):
        at = f"{folder}/{path}"
        os.makedirs(os.path.dirname(at), exist_ok=True)
        if made.link:
            os.symlink(made.link, at)
        else:
            with open(at, "wb") as opened:
                opened.write(made.content)
            os.chmod(at, made.mode)
    for at, _, names in os.walk(folder, topdown=False):
        for name in names:
            os.utime(f"{at}/{name}", (stamp, stamp), follow_symlinks=False)
        os.chmod(at, 0o755)
        os.utime(at, (stamp, stamp))


def write_tar(path, files, stamp):
    """Writes a tar.gz."""
    with contextlib.ExitStack() as opened:
        raw = opened.enter_context(open(path, "wb"))
        packed = opened.enter_context(gzip.GzipFile("", "wb", 9, raw, mtime=0))
        tar = opened.enter_context(tarfile.open(fileobj=packed, mode="w", format=tarfile.USTAR_FORMAT))
        for name, made in sorted(files.items()):
            entry = tarfile.TarInfo(name)
            entry.mtime, entry.mode, entry.size = stamp, made.mode, len(made.content)
            entry.uname = entry.gname = "root"
            if made.link:
                entry.type, entry.linkname, entry.mode = tarfile.SYMTYPE, made.link, 0o777
            tar.addfile(entry, io.BytesIO(made.content))


def write_zip(path, files, stamp):
    with zipfile.ZipFile(path, "w") as archive:
        for name, made in sorted(files.items()):
            entry = zipfile.ZipInfo(name, time.gmtime(stamp)[:6])
            entry.external_attr = (0o100000 | made.mode) << 16
            archive.writestr(entry, made.content, zipfile.ZIP_DEFLATED, 9)
