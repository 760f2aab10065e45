"""Handles of keys and of verifiers, which the library takes in one call at a time."""
import contextlib
import ctypes
import functools
import json
from collections.abc import Iterator

from ._library import ALGORITHMS, Handle, Info, Verdict, answer, check, library, no_fork, number_of, refusal_of, slices
from ._status import Source, Status

try:
    from ._fast import decode as _compiled  # type: ignore[import]
except ImportError:
    # the wheel was built without Python's headers
    _compiled = None

_DECODE = ctypes.cast(library.jwt_verifier_decode, ctypes.c_void_p).value
# the room of _fast.c for claims, in bytes, and the shortest token for which a secret lets other threads run, as in hashlib: a switch of
# threads takes longer than to verify a shorter one
_ROOM, _LONG = 8192, 2048
# a handle and its verdict, and the addresses of both
_Taken = tuple[Handle, Verdict, int, int]


class Handles:
    """Handles of one verifier, for any number of threads: each call takes an idle one, or shares another."""

    def __init__(self, first: Handle, is_of_secret: bool) -> None:
        self._first, self._is_of_secret = first, is_of_secret
        self._idle: list[_Taken] = []

    def _another(self) -> _Taken:
        made, said = Handle(), Verdict()
        with no_fork:
            check(library.jwt_share(self._first, made))
        return made, said, ctypes.addressof(made), ctypes.addressof(said)

    @contextlib.contextmanager
    def _handle(self) -> Iterator[Handle]:
        try:
            taken = self._idle.pop()
        except IndexError:
            taken = self._another()
        try:
            yield taken[0]
        finally:
            self._idle.append(taken)

    def decode(self, token: bytes, now: int) -> str:
        """Returns the claims as JSON. Raises Refusal, or MemoryError."""
        try:
            taken = self._idle.pop()
        except IndexError:
            taken = self._another()
        handle, said, at, of_said = taken
        try:
            found: str | int = Status.BUFFER_TOO_SMALL
            if _compiled is not None and len(token) <= _ROOM:
                found = _compiled(_DECODE, at, of_said, token, now, self._is_of_secret and len(token) < _LONG)
                if isinstance(found, str):
                    return found
            if found == Status.BUFFER_TOO_SMALL:
                found = _by_ctypes(handle, said, token, now)
            if isinstance(found, str):
                return found
            raise refusal_of(found, said)
        finally:
            self._idle.append(taken)

    def accepts(self, algorithm: str, message: bytes, signature: bytes) -> bool:
        """Returns whether a signature is one of a message by the one key of the verifier. Raises Refusal, or MemoryError."""
        with self._handle() as handle:
            status = library.jwt_verifier_check(handle, number_of(algorithm), *slices(message, signature))
        if status != Status.INVALID_SIGNATURE:
            check(status)
        return not status

    def attached(self, message: bytes, signature: bytes) -> str:
        """Returns the token of a message and a signature by the one key of the verifier. Raises Refusal, or MemoryError."""
        with self._handle() as handle:
            return str(answer(library.jwt_attach, handle, *slices(message, signature)), "utf-8")

    def either(self, other: "Handles") -> "Handles":
        """Returns a verifier that accepts what one of the two accepts. Raises Refusal, or MemoryError."""
        made = Handle()
        with self._handle() as first, other._handle() as second:
            check(library.jwt_verifier_or(first, second, made))
        return Handles(made, self._is_of_secret and other._is_of_secret)


def _by_ctypes(handle: Handle, said: Verdict, token: bytes, now: int) -> str | int:
    """Returns the claims as JSON, or the status of the refusal."""
    status, said.len = Status.BUFFER_TOO_SMALL, max(len(token), 1024)
    while status == Status.BUFFER_TOO_SMALL:
        buffer = ctypes.create_string_buffer(said.len)
        status = library.jwt_verifier_decode(handle, *slices(token), now, buffer, len(buffer), said)
    return status or str(ctypes.string_at(buffer, said.len), "utf-8")


@functools.cache
def _names_of(bits: int) -> tuple[str, ...]:
    return tuple(name for number, name in enumerate(ALGORITHMS, 1) if bits >> number & 1)


class Keys:
    """A secret, a key or the items of a set, which the library has read once. Any number of threads may use it.

    `given` is what was read. For each item `statuses` has JWT_OK, or why the library skips it, and `verifies` the algorithms that
    verify with it. `is_usable` tells whether a token can be verified with all of them, of a set by the kid. `skipped` tells users of a
    set which items are skipped, and why.
    """

    def __init__(self, source: Source, given: bytes) -> None:
        """Raises Refusal, or MemoryError."""
        self.is_secret, self.given, self.is_set, self.skipped = source == Source.SECRET, given, source == Source.SET, ""
        self._handle = Handle()
        self._verifier: Handles | None = None
        items, kept = ctypes.c_size_t(), ctypes.c_size_t()
        check(library.jwt_keys_add(self._handle, source, *slices(given), items, kept))
        infos = [self._info(at) for at in range(items.value)]
        self.statuses, self.verifies = [it.status for it in infos], [_names_of(it.verifies) for it in infos]
        # of all items together
        self.is_usable = self._info(ctypes.c_size_t(-1).value).verifies != 0

    def _info(self, at: int) -> Info:
        found = Info()
        check(library.jwt_keys_info(self._handle, at, found))
        return found

    # Each call with the handle holds the lock, and is short: a verifier, which may take long to make, is made of a copy.

    def verifier(self, options: bytes, longest: int = 0, prepared: int = 0) -> Handles:
        """Returns a verifier of the keys under the library's options. Raises Refusal, or MemoryError."""
        copy, made = Handle(), Handle()
        with no_fork:
            check(library.jwt_share(self._handle, copy))
        check(library.jwt_verifier_new(copy, *slices(options), longest, prepared, made))
        return Handles(made, self.is_secret)

    def of_one(self) -> Handles:
        """Returns the verifier of signatures by one key, with each algorithm that the key is for."""
        if self._verifier is None:
            self._verifier = self.verifier(json.dumps({"algorithms": self.verifies[0]}).encode())
        return self._verifier

    def signed(self, header: bytes, payload: bytes) -> str:
        """Returns the token of a header and a payload, signed with a secret. Raises Refusal, or MemoryError."""
        with no_fork:
            return str(answer(library.jwt_sign, self._handle, *slices(header, payload)), "utf-8")

    def text(self) -> bytes:
        """Returns the JSON Web Key of the first item. Raises Refusal, or MemoryError."""
        with no_fork:
            return answer(library.jwt_keys_text, self._handle, 0)

    def thumbprint(self, bits: int) -> str:
        """Returns the thumbprint (RFC 7638) of the first item. Raises Refusal, or MemoryError."""
        with no_fork:
            return str(answer(library.jwt_thumbprint, self._handle, 0, bits), "utf-8")
