"""Headers and payloads of a caller as JSON, which is signed byte for byte."""
import calendar
import ctypes
import datetime
import json
import math
from collections.abc import Mapping
from typing import Any

from ._library import ALGORITHMS, Refusal, answer, library, slices, text_of
from ._rules import exact_number, wrong_type
from ._status import Status
from .exceptions import InvalidKeyError, InvalidTokenError

Encoder = type[json.JSONEncoder] | None

# the last second of the year 9999
_LAST_TIME = 253402300799
_UNITS = ((10**3, "milliseconds"), (10**6, "microseconds"), (10**9, "nanoseconds"))
# what to write instead of a time of another type
_INSTEAD = ((datetime.timedelta, "; add it to datetime.datetime.now(datetime.timezone.utc)"), (float, "; int() makes whole seconds of it"))

_UNSIGNABLE: dict[int, tuple[type[Exception], str]] = {
    Status.BAD_HEADER: (ValueError, "headers has a member of a wrong type, a number with a fraction, or a name twice"),
    Status.BAD_CLAIMS: (
        ValueError,
        "payload can't be read back: it is no object, has a name twice, such as by the keys 1 and '1', has a lone surrogate or a number beyond"
        " a double, or is nested too deeply",
    ),
    Status.SIGNING: (ValueError, "signature has not the length of its algorithm's signatures, or part.message is none of signing_input"),
    Status.INVALID_ALGORITHM: (InvalidKeyError, "the key is not for the algorithm of the header"),
    Status.INVALID_KEY_FORMAT: (InvalidKeyError, "the key is not for the algorithm of the header"),
    Status.INVALID_SIGNATURE: (
        InvalidKeyError,
        "the public half of the key doesn't verify the signature that was made: the key is damaged, or the signer failed",
    ),
}


def unsignable(refusal: Refusal) -> Exception:
    """Returns the exception for what can't be issued."""
    kind, text = _UNSIGNABLE.get(refusal.status) or (ValueError, text_of(refusal.status))
    return kind(text)


def message_of(header: bytes, payload: bytes) -> tuple[str, bytes]:
    """Returns the algorithm and the message for an external signature. Raises Refusal, or MemoryError."""
    number = ctypes.c_uint32()
    message = answer(library.jwt_signing_input, *slices(header, payload), number)
    return ALGORITHMS[number.value - 1], message


def members_of(algorithm: Any, headers: Mapping[str, Any] | None) -> dict[str, Any]:
    """Returns the members of a header: those that are given, and `alg` and `typ`."""
    if headers is not None and not isinstance(headers, Mapping):
        raise wrong_type("headers", "a mapping", headers)
    # PyJWT takes a header without its alg too
    given = {name: value for name, value in (headers or {}).items() if name != "alg" or value}
    if not isinstance(given.get("kid", ""), str):
        raise InvalidTokenError("Key ID header parameter must be a string")
    members = {"typ": "JWT", "alg": algorithm, **given}
    if not members["typ"]:
        del members["typ"]
    return members


def payload_of(payload: Mapping[str, Any], encoder: Encoder = None, cuts: bool = False) -> bytes:
    """Returns the claims of a token that is issued; dates become whole seconds, and if `cuts` also floats."""
    if not isinstance(payload, Mapping):
        raise TypeError("Expecting a mapping object, as JWT only supports JSON objects as payloads.")
    claims = {name: _time(name, value, cuts) if name in ("exp", "iat", "nbf") else value for name, value in payload.items()}
    return written("payload", claims, encoder)


def _time(name: str, value: Any, cuts: bool) -> int:
    """Returns a time (RFC 7519 section 2) in whole seconds since 1970-01-01 00:00:00 UTC.

    Raises TypeError for what is neither an int nor a datetime, and ValueError for a time before 1970 or after the year 9999.
    """
    if isinstance(value, datetime.datetime):
        value = calendar.timegm(value.utctimetuple())
    elif cuts and isinstance(value, float) and math.isfinite(value):
        value = int(value)
    if isinstance(value, bool) or not isinstance(value, int):
        instead = next((it for kind, it in _INSTEAD if isinstance(value, kind)), "")
        raise TypeError(f"{name} must be an int of seconds since 1970-01-01 UTC or a datetime, not {type(value).__name__}{instead}")
    value = exact_number(value)
    if not 0 <= value <= _LAST_TIME:
        unit = next((it for factor, it in _UNITS if _LAST_TIME < value <= _LAST_TIME * factor), None)
        looks = f", which looks like {unit}" if unit else ""
        raise ValueError(f"{name} must be seconds since 1970-01-01 UTC, from 0 to {_LAST_TIME} (the year 9999), not {value}{looks}")
    return int(value)


def written(name: str, value: Mapping[str, Any], encoder: Encoder = None, sorts: bool = False) -> bytes:
    """Returns the JSON of a header or a payload."""
    try:
        return json.dumps(value, separators=(",", ":"), cls=encoder, allow_nan=False, sort_keys=sorts).encode()
    except (TypeError, ValueError) as error:
        instead = "; JSON has no NaN and no Infinity: write None or a string instead" if "float" in str(error) else ""
        kind = TypeError if isinstance(error, TypeError) else ValueError
        raise kind(f"{name} can't be written as JSON: {error}{instead}") from error
