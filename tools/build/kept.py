"""Texts that are kept on this machine, so that a later run in any checkout makes anew only what changed.

Each has a key, the sum of all that it rests on. They lie below $XDG_CACHE_HOME, or else ~/.cache, in a folder that this user alone may
write: what another could have put there is not taken.

Three things are kept: which wrong bodies were refused (wrong_bodies.py); the compiled code of the library for C and of the programs of a
release, with the prover's last line (baseline.py); and that line for each crate (built.py). The first two rest on the sources of the crate
and of those below, the kit's prover and libraries, the programs of this folder, and the edit or the compiler. A refusal is kept only if these
are the same when the check ends. No failure is kept, and no run of a program or of a test; rt keeps proofs, if the kit's can.
"""
import contextlib
import hashlib
import os
import stat

FOLDER = "jsonwebtoken-rattle"
# How many texts of one name are kept: those that were made or taken last.
NEWEST = 3


def key_of(*parts):
    """Returns the sum of these parts, each of which is a string, a number, a list of such parts, or None."""
    return hashlib.sha256(repr(parts).encode()).hexdigest()


def is_own(folder):
    """Returns whether the folder is this user's, and nobody else can write to it."""
    with contextlib.suppress(OSError):
        found = os.lstat(folder)
        return stat.S_ISDIR(found.st_mode) and found.st_uid == os.geteuid() and not found.st_mode & 0o022
    return False


class Store:
    """The texts of one name, each by its key."""

    def __init__(self, name):
        home = os.environ.get("XDG_CACHE_HOME") or os.path.expanduser("~/.cache")
        self.top = f"{home}/{FOLDER}"
        self.folder = f"{self.top}/{name}"

    def find(self, key):
        """Returns the text of this key, or None."""
        if not is_own(self.top):
            return None
        with contextlib.suppress(OSError, UnicodeDecodeError):
            with open(f"{self.folder}/{key}", encoding="utf-8") as file:
                text = file.read()
            # a text that was taken counts as new
            os.utime(f"{self.folder}/{key}")
            return text
        return None

    def keep(self, key, text):
        """Keeps a text, and drops the oldest."""
        try:
            os.makedirs(self.top, mode=0o700, exist_ok=True)
            if not is_own(self.top):
                raise PermissionError("others can write to the folder")
            os.makedirs(self.folder, mode=0o700, exist_ok=True)
            with open(f"{self.folder}/.{key}", "w", encoding="utf-8") as file:
                file.write(text)
            os.replace(f"{self.folder}/.{key}", f"{self.folder}/{key}")
            self.drop()
        except OSError as error:
            print(f"a result is not kept in {self.top}: {error}", flush=True)

    def drop(self):
        """Removes all but the newest texts."""
        found = [entry for entry in os.scandir(self.folder) if not entry.name.startswith(".")]
        for entry in sorted(found, key=lambda entry: -entry.stat().st_mtime)[NEWEST:]:
            os.remove(entry.path)
