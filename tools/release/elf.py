"""What a built file asks of the machine that loads it."""
import re
import subprocess

VERSION = re.compile(r"\(?\bGLIBC_([0-9.]+)\b")


def numbers(version):
    return tuple(map(int, version.split(".")))


def glibc(*paths):
    """Returns the least version of glibc that has all symbols of these programs and shared libraries."""
    found = {"2.2.5"}
    for path in paths:
        ran = subprocess.run(["objdump", "-T", path], stdout=subprocess.PIPE, text=True, check=True)
        found.update(VERSION.findall(ran.stdout))
    return max(found, key=numbers)


def needed(path):
    """Returns the names of the shared libraries that a file asks for."""
    ran = subprocess.run(["objdump", "-p", path], stdout=subprocess.PIPE, text=True, check=True)
    return re.findall(r"^\s+NEEDED\s+(\S+)", ran.stdout, re.M)
