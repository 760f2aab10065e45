"""Tells whether a file was built from a crate's sources as they are: by contents, and not by times, which a copy of a checkout changes."""
import hashlib
import os

from build import kit
from build.crates import with_those_below
from build.kept import Store, key_of


def sum_of_file(path):
    with open(path, "rb") as file:
        return hashlib.sha256(file.read()).hexdigest()


def sum_of_sources(crate):
    """Returns a sum of the sources of the crate and of those below it."""
    parts = [(part.line.split(), [(path, sum_of_file(f"{part.folder}/{path}")) for path in part.sources()]) for part in with_those_below([crate])]
    return hashlib.sha256(repr(parts).encode()).hexdigest()


def sum_of_means(crate):
    """Returns a sum of what makes something of the crate's sources: the kit's prover and libraries, each of which says its own sum, and
    the programs of this folder."""
    own = os.path.dirname(os.path.realpath(__file__))
    programs = [(name, sum_of_file(f"{own}/{name}")) for name in sorted(os.listdir(own)) if os.path.isfile(f"{own}/{name}")]
    libraries = [sum_of_file(f"{kit.folder()}/rlibs/{name}.rlib/format") for name in kit.libraries(crate)]
    return key_of(kit.version(), sum_of_file(kit.program("rattle")), libraries, programs)


def sum_of(crate, files):
    """Returns a sum of the crate's sources and of what was built from them."""
    return hashlib.sha256(repr((sum_of_sources(crate), [sum_of_file(path) for path in files])).encode()).hexdigest()


def note(crate, *files):
    """Notes next to the first file that these were built from the crate's sources."""
    with open(f"{files[0]}.sum", "w", encoding="utf-8") as file:
        file.write(f"{sum_of(crate, files)}\n")


def keep_verdict(crate, line):
    """Keeps the last line of the prover for the crate's sources as they are."""
    Store(f"verdict-{crate.name}").keep(key_of(sum_of_sources(crate), kit.version()), line)


def verdict_of(crate):
    """Returns the last line of the prover for the crate's sources as they are, or None if it is not kept."""
    return Store(f"verdict-{crate.name}").find(key_of(sum_of_sources(crate), kit.version()))


def is_built(crate, *files):
    """Returns whether these files were built from the crate's sources as they are."""
    noted = f"{files[0]}.sum"
    if not all(map(os.path.isfile, [*files, noted])):
        return False
    with open(noted, encoding="utf-8") as file:
        return file.read().strip() == sum_of(crate, files)
