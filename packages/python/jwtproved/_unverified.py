"""The parts of a token of any algorithm. Nothing is verified: anyone can write such a token."""
import base64
import json
from typing import Any

from ._library import Refusal, answer, library, slices
from ._rules import exact_str
from ._status import Part, Status
from .exceptions import DecodeError, InvalidTokenError

Token = str | bytes | bytearray | memoryview

_TEXTS: dict[int, str] = {
    Status.INVALID_TOKEN: "Not enough segments",
    Status.BASE64: "Invalid {} padding",
    Status.JSON: "Invalid {} string: must be a json object",
}


def token_of(name: str, value: Token) -> bytes:
    """Returns the bytes of a token. A lone surrogate becomes bytes that are in no token, since a sender may write any text."""
    if type(value) is str and value.isascii():
        return value.encode()
    if isinstance(value, str):
        return exact_str(value).encode("utf-8", "surrogatepass")
    if isinstance(value, (bytes, bytearray, memoryview)):
        return bytes(value)
    # as of a cookie that is not there
    raise DecodeError(f"Invalid token type. Token must be a {bytes}; {name} is {type(value).__name__}")


def part_of(token: bytes, part: Part) -> bytes:
    """Returns the header or the payload of a token, which must be an object, as JSON. Raises DecodeError."""
    try:
        return answer(library.jwt_unverified, *slices(token), part)
    except Refusal as refusal:
        raise DecodeError(_TEXTS[refusal.status].format(part.name.lower())) from None


def header_of(token: bytes) -> dict[str, Any]:
    """Returns the header of a token. Raises DecodeError."""
    found: dict[str, Any] = json.loads(part_of(token, Part.HEADER))
    return found


def get_unverified_header(jwt: Token) -> dict[str, Any]:
    """Returns the header of a token of any algorithm. Nothing is verified. As in PyJWT, a `kid` must be a string."""
    header = header_of(token_of("jwt", jwt))
    kid = header.get("kid")
    if kid is not None and not isinstance(kid, str):
        raise InvalidTokenError("Key ID header parameter must be a string")
    return header


def octets_of(part: bytes, name: str) -> bytes:
    """Returns the bytes of a part of a token, which must be base64url (RFC 7515 section 2). Raises DecodeError.

    The library has no call for this. PyJWT returns the bytes of any signature, and `PyJWS` the bytes of any payload.
    """
    try:
        found = base64.urlsafe_b64decode(part + b"==")
    except ValueError:
        found = b""
    # the decoder skips other characters, and ignores unused bits
    if base64.urlsafe_b64encode(found).rstrip(b"=") != part:
        raise DecodeError(f"Invalid {name} padding")
    return found


def complete(token: bytes, payload: Any) -> dict[str, Any]:
    """Returns a payload with the header of its token and the bytes of the signature, as PyJWT's `decode_complete` does."""
    return {"header": header_of(token), "payload": payload, "signature": octets_of(token.rpartition(b".")[2], "crypto")}
