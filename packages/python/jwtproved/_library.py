"""The shared library: its calls for C (jwtproved.h), by ctypes."""
import ctypes
import functools
import itertools
import os
import threading
from collections.abc import Callable, Iterator
from typing import Any

from ._status import Of, Status

# A fork waits for the thread that holds it, such as one that imports a module, or reads a key by OpenSSL: the child has no such thread, and
# would wait for what that thread has locked for ever. A finalizer may verify while its thread holds it.
no_fork = threading.RLock()
# what the thread that forks does first
before_fork: list[Callable[[], None]] = []


def _before_fork() -> None:
    no_fork.acquire()
    for call in before_fork:
        call()


os.register_at_fork(before=_before_fork, after_in_parent=no_fork.release, after_in_child=no_fork.release)

_FILE = "libjwtproved.so"
_PATH = os.environ.get("JWTPROVED_LIBRARY") or os.path.join(os.path.dirname(os.path.abspath(__file__)), _FILE)


class _Handle(ctypes.Structure):
    """A struct jwt_handle."""

    _fields_ = [("at", ctypes.c_void_p)]


class Info(ctypes.Structure):
    """A struct jwt_key_info."""

    _fields_ = [("status", ctypes.c_uint32), ("verifies", ctypes.c_uint32), ("signs", ctypes.c_uint32)]


class Verdict(ctypes.Structure):
    """A struct jwt_verdict."""

    _fields_ = [
        ("last", ctypes.c_uint64),
        *((name, ctypes.c_size_t) for name in ("len", "verifier")),
        *((name, ctypes.c_uint32) for name in ("algorithm", "test", "claim", "has_kid", "as_signed")),
    ]


_BYTES = [ctypes.c_char_p, ctypes.c_size_t]
_BUFFER = [ctypes.c_char_p, ctypes.c_size_t, ctypes.POINTER(ctypes.c_size_t)]
_NUMBER = ctypes.POINTER(ctypes.c_uint32)
_HANDLE = ctypes.POINTER(_Handle)
_SIZE = ctypes.POINTER(ctypes.c_size_t)
_PROTOTYPES: dict[str, list[Any]] = {
    "jwt_keys_add": [_HANDLE, ctypes.c_uint32, *_BYTES, _SIZE, _SIZE],
    "jwt_keys_info": [_HANDLE, ctypes.c_size_t, ctypes.POINTER(Info)],
    "jwt_keys_text": [_HANDLE, ctypes.c_size_t, *_BUFFER],
    "jwt_thumbprint": [_HANDLE, ctypes.c_size_t, ctypes.c_uint32, *_BUFFER],
    "jwt_share": [_HANDLE, _HANDLE],
    "jwt_free": [_HANDLE],
    "jwt_verifier_new": [_HANDLE, *_BYTES, ctypes.c_size_t, ctypes.c_size_t, _HANDLE],
    "jwt_verifier_or": [_HANDLE, _HANDLE, _HANDLE],
    "jwt_verifier_decode": [_HANDLE, *_BYTES, ctypes.c_uint64, ctypes.c_char_p, ctypes.c_size_t, ctypes.POINTER(Verdict)],
    "jwt_verifier_check": [_HANDLE, ctypes.c_uint32, *_BYTES, *_BYTES],
    "jwt_decode_verdict": [*_BYTES, ctypes.c_uint32, *_BYTES, *_BYTES, ctypes.c_bool, *_BYTES, ctypes.c_uint64, _NUMBER, *_BUFFER],
    "jwt_signed_part": [*_BYTES, _NUMBER, _SIZE, *_BUFFER],
    "jwt_unverified": [*_BYTES, ctypes.c_uint32, *_BUFFER],
    "jwt_check_claims": [*_BYTES, *_BYTES, ctypes.c_uint64, _NUMBER],
    "jwt_sign": [_HANDLE, *_BYTES, *_BYTES, *_BUFFER],
    "jwt_signing_input": [*_BYTES, *_BYTES, _NUMBER, *_BUFFER],
    "jwt_attach": [_HANDLE, *_BYTES, *_BYTES, *_BUFFER],
    "jwt_ecdsa_signature": [*_BYTES, ctypes.c_uint32, *_BUFFER],
    "jwt_algorithm": _BYTES,
    "jwt_text": [ctypes.c_uint32, ctypes.c_uint32, *_BUFFER],
}


def _load() -> ctypes.CDLL:
    """Loads the library that JWTPROVED_LIBRARY names, or else the one in this package."""
    try:
        found = ctypes.CDLL(_PATH)
        for name, types in _PROTOTYPES.items():
            call = getattr(found, name)
            call.argtypes, call.restype = types, ctypes.c_uint32
        found.jwt_free.restype = None
    except (OSError, AttributeError) as error:
        raise ImportError(
            f"the shared library of jwtproved is missing: {error}. `pip install ./packages/python` in a checkout of its repository builds it"
            " into the package; JWTPROVED_LIBRARY names another path"
        ) from error
    return found


library = _load()


class Handle(_Handle):
    """A handle of keys or of a verifier, which is freed with the object."""

    def __del__(self, free: Any = library.jwt_free) -> None:
        free(self)


class Refusal(Exception):
    """A status other than JWT_OK, with `test`, `claim`, `verifier` and `has_kid` of what a verifier says of a token, or else 0."""

    def __init__(self, status: int, said: Verdict | None = None) -> None:
        super().__init__(status)
        self.status, it = status, said or Verdict()
        self.test, self.claim, self.verifier, self.has_kid = it.test, it.claim, it.verifier, it.has_kid


def refusal_of(status: int, said: Verdict | None = None) -> Exception:
    """Returns Refusal, or MemoryError, for a status other than JWT_OK."""
    if status == Status.OUT_OF_MEMORY:
        return MemoryError("the library of jwtproved is out of memory")
    return Refusal(status, said)


def check(status: int) -> None:
    """Raises Refusal, or MemoryError, for a status other than JWT_OK."""
    if status:
        raise refusal_of(status)


def answer(call: Any, *arguments: Any) -> bytes:
    """Returns what a call writes. Raises Refusal, or MemoryError."""
    length = ctypes.c_size_t(1024)
    status: int = Status.BUFFER_TOO_SMALL
    while status == Status.BUFFER_TOO_SMALL:
        buffer = ctypes.create_string_buffer(length.value)
        status = call(*arguments, buffer, len(buffer), length)
    check(status)
    return ctypes.string_at(buffer, length.value)


@functools.cache
def _text(of: Of, number: int) -> str:
    return str(answer(library.jwt_text, of, number), "utf-8")


def text_of(status: int) -> str:
    """Returns the text of a status, such as 'InvalidSignature'."""
    return _text(Of.OF_STATUS, status)


def test_of(number: int) -> str:
    """Returns the name of a test of a token, such as 'SignatureIsAccepted'."""
    return _text(Of.OF_TEST, number)


def _algorithms() -> Iterator[str]:
    for number in itertools.count(1):
        try:
            yield _text(Of.OF_ALGORITHM, number)
        except Refusal:
            return


# the names of the library's algorithms, in the order of their numbers
ALGORITHMS = tuple(_algorithms())


def slices(*texts: bytes) -> list[Any]:
    """Returns pointer and length of each text, one after the other."""
    return [argument for it in texts for argument in (it, len(it))]


def number_of(algorithm: str) -> int:
    """Returns the number of an algorithm in jwtproved.h, or 0 if the library has no algorithm of this name."""
    return int(library.jwt_algorithm(*slices(str.encode(algorithm, "utf-8", "surrogatepass"))))
