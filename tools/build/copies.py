"""Copies of crates, each a repository of its own.

A copy holds no work of earlier runs, so that what is built in it rests on its own sources alone, whatever a kit's rt puts back at its
end; and it stays as it is, so that what is edited meanwhile is not called proved.
"""
import os
import shutil

from build.crates import crates, with_those_below
from build.kit import TOP


def copy_crates(named, to):
    """Copies these crates and those below them, without what was built, to the folder `to`. Returns the copies by their names."""
    os.makedirs(f"{to}/.git")
    some = with_those_below(named)
    for crate in some:
        shutil.copytree(crate.folder, f"{to}/crates/{crate.name}", ignore=lambda at, _, top=crate.folder: {"out"} if at == top else ())
    with open(f"{to}/crates.txt", "w", encoding="utf-8") as file:
        file.writelines(f"{crate.line}\n" for crate in some)
    shutil.copy(f"{TOP}/HANDLES", to)
    return crates(to)
