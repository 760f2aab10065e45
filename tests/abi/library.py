"""The library for C by ctypes, for the tests of this folder. JWT_LIBRARY names it."""
import ctypes
import json
import os

TOP = os.path.dirname(os.path.dirname(os.path.dirname(os.path.abspath(__file__))))
DATA = os.path.join(TOP, "crates", "jwt_vectors", "data")
OK, MISSING_CLAIM, MALFORMED_CLAIM, BUFFER_TOO_SMALL = 0, 59, 79, 100
CLAIM_IAT = 2**32 - 1
TEXT, SECRET, CERTIFICATE, SET = 1, 2, 3, 4
PAYLOAD = 2
OF_STATUS, OF_TEST = 1, 2
# the names in rows of the kinds and statuses whose texts are others
NAMES = {"Base64 error": "Base64", "JSON error": "Json", "UTF-8 error": "Utf8", "Invalid key": "BadKey", "No key fits the algorithms": "NoUsableKey"}
NAMES |= {"Missing required claim": "MissingRequiredClaim", "Invalid format for claim": "InvalidClaimFormat"}
BYTES = [ctypes.c_char_p, ctypes.c_size_t]
BUFFER = [ctypes.c_char_p, ctypes.c_size_t, ctypes.POINTER(ctypes.c_size_t)]


class Handle(ctypes.Structure):
    """A handle of keys or of a verifier, which is freed at the end of a `with`."""

    _fields_ = [("at", ctypes.c_void_p)]

    def __enter__(self):
        return self

    def __exit__(self, *of_error):
        LIBRARY.jwt_free(self)


class Info(ctypes.Structure):
    """What an item can do."""

    _fields_ = [("status", ctypes.c_uint32), ("verifies", ctypes.c_uint32), ("signs", ctypes.c_uint32)]


class Verdict(ctypes.Structure):
    """What a verifier says of a token."""

    _fields_ = [("last", ctypes.c_uint64), ("len", ctypes.c_size_t), ("verifier", ctypes.c_size_t)]
    _fields_ += [(name, ctypes.c_uint32) for name in ("algorithm", "test", "claim", "has_kid", "as_signed")]

    def values(self):
        return [getattr(self, name) for name, _ in self._fields_]


def declared(library):
    """Returns the library, of which each call that is used here has its types."""
    handle, size, number = ctypes.POINTER(Handle), ctypes.POINTER(ctypes.c_size_t), ctypes.POINTER(ctypes.c_uint32)
    library.jwt_keys_add.argtypes = [handle, ctypes.c_uint32, *BYTES, size, size]
    library.jwt_keys_info.argtypes = [handle, ctypes.c_size_t, ctypes.POINTER(Info)]
    library.jwt_keys_text.argtypes = [handle, ctypes.c_size_t, *BUFFER]
    library.jwt_verifier_new.argtypes = [handle, *BYTES, ctypes.c_size_t, ctypes.c_size_t, handle]
    library.jwt_verifier_decode.argtypes = [handle, *BYTES, ctypes.c_uint64, *BYTES, ctypes.POINTER(Verdict)]
    library.jwt_decode_verdict.argtypes = [*BYTES, ctypes.c_uint32, *BYTES, *BYTES, ctypes.c_bool, *BYTES, ctypes.c_uint64, number, *BUFFER]
    library.jwt_check_claims.argtypes = [*BYTES, *BYTES, ctypes.c_uint64, number]
    library.jwt_unverified.argtypes = [*BYTES, ctypes.c_uint32, *BUFFER]
    library.jwt_free.argtypes, library.jwt_free.restype = [handle], None
    library.jwt_text.argtypes = [ctypes.c_uint32, ctypes.c_uint32, *BUFFER]
    return library


LIBRARY = declared(ctypes.CDLL(os.environ.get("JWT_LIBRARY") or os.path.join(TOP, "out", "libjwtproved.so")))


def left(call):
    """Returns the status and the bytes that a call leaves in a buffer, which is its last three arguments."""
    buffer, length = ctypes.create_string_buffer(1 << 16), ctypes.c_size_t()
    status = call(buffer, len(buffer), ctypes.byref(length))
    return status, buffer.raw[: length.value]


def text(of, number):
    """Returns a text of a table of jwt_text."""
    return left(lambda *buffer: LIBRARY.jwt_text(of, number, *buffer))[1].decode()


def name(status):
    """Returns the name that rows have of a status."""
    found = text(OF_STATUS, status)
    return NAMES.get(found, found)


def error(status, claim, options):
    """Returns the error that rows have of a status, with the name of its claim, or None if there is no error. The place of a claim selects the
    name in the options."""
    if status == OK:
        return None
    kind, _, named = text(OF_STATUS, status).partition(": ")
    names = options.get({MISSING_CLAIM: "required", MALFORMED_CLAIM: "texts"}.get(status)) or []
    if claim:
        named = "iat" if claim == CLAIM_IAT else (names[claim - 1 : claim] or [f"place {claim}"])[0]
    return f"{NAMES.get(kind, kind)}({named})" if named or claim else name(status)


def add(keys, source, data):
    """Adds keys to a handle, and returns the status and the numbers of items and of kept ones."""
    items, kept = ctypes.c_size_t(), ctypes.c_size_t()
    status = LIBRARY.jwt_keys_add(keys, source, data, len(data), ctypes.byref(items), ctypes.byref(kept))
    return status, items.value, kept.value


def info(keys, at):
    """Returns what the item at this place can do."""
    result = Info()
    assert LIBRARY.jwt_keys_info(keys, at, result) == OK
    return result


def key_text(keys, at):
    """Returns the JSON Web Key of the item at this place."""
    status, text = left(lambda *buffer: LIBRARY.jwt_keys_text(keys, at, *buffer))
    return json.loads(text) if status == OK else name(status)


def decoded(verifier, token, now, room=1 << 16):
    """Returns the status, the claims and the verdict that a verifier leaves of a token."""
    buffer, said = ctypes.create_string_buffer(room), Verdict(*[99] * len(Verdict._fields_))
    status = LIBRARY.jwt_verifier_decode(verifier, token, len(token), now, buffer, room, said)
    return status, buffer.raw[: said.len], said


def verified(source, data, options, token, now):
    """Returns the claims of a token, or the name of the first refusal; whether a verifier is made; and the last time at which the token is
    accepted."""
    with Handle() as keys, Handle() as verifier:
        status, _, _ = add(keys, source, data)
        if status == OK:
            status = LIBRARY.jwt_verifier_new(keys, options, len(options), 1 << 30, 0, verifier)
        if status != OK:
            return {"err": name(status)}, False, 0
        status, claims, said = decoded(verifier, token, now)
    return {"ok": json.loads(claims)} if status == OK else {"err": name(status)}, True, said.last


def rows(path):
    """Returns the rows of a file."""
    with open(path, encoding="utf-8") as file:
        return [json.loads(line) for line in file]
