"""Names that PyJWT has in its module of this name: texts and numbers as bytes. Nothing here is asked when a token is verified."""
import base64
from typing import Any

from ._signatures import ecdsa_signature

_ES = {256: "ES256", 384: "ES384"}


def force_bytes(value: str | bytes) -> bytes:
    """Returns a text in UTF-8, and bytes as they are."""
    if isinstance(value, str):
        return value.encode()
    if isinstance(value, bytes):
        return value
    raise TypeError("Expected a string value")


def base64url_encode(input: bytes) -> bytes:
    """Returns bytes as base64url without padding (RFC 7515 section 2)."""
    return base64.urlsafe_b64encode(input).rstrip(b"=")


def base64url_decode(input: str | bytes) -> bytes:
    """Returns the bytes of base64url, with padding or without. Raises a ValueError for any other text."""
    text = force_bytes(input)
    if b"+" in text or b"/" in text:
        raise ValueError("this is not base64url")
    return base64.b64decode(text + b"=" * (-len(text) % 4), altchars=b"-_", validate=True)


def bytes_from_int(val: int, *, bit_length: int | None = None) -> bytes:
    """Returns the big-endian bytes of a number, as many as these bits need, or else the number."""
    bits = val.bit_length() if bit_length is None else bit_length
    return val.to_bytes((bits + 7) // 8, "big")


def to_base64url_uint(val: int, *, bit_length: int | None = None) -> bytes:
    """Returns a number as base64url of its bytes (RFC 7518 section 2)."""
    if val < 0:
        raise ValueError("Must be a positive integer")
    return base64url_encode(bytes_from_int(val, bit_length=bit_length) or b"\0")


def from_base64url_uint(val: str | bytes) -> int:
    """Returns the number of base64url of its bytes."""
    return int.from_bytes(base64url_decode(val), "big")


def number_to_bytes(num: int, num_bytes: int) -> bytes:
    """Returns a number as this many big-endian bytes."""
    return num.to_bytes(num_bytes, "big")


def bytes_to_number(string: bytes) -> int:
    """Returns the number of big-endian bytes."""
    return int.from_bytes(string, "big")


def der_to_raw_signature(der_sig: bytes, curve: Any) -> bytes:
    """Returns a signature by P-256 or P-384 in DER as two numbers (RFC 7518 section 3.4)."""
    return ecdsa_signature(der_sig, _algorithm_of(curve))


def raw_to_der_signature(raw_sig: bytes, curve: Any) -> bytes:
    """Returns a signature by P-256 or P-384, which is two numbers, in DER."""
    size = int(_algorithm_of(curve)[2:]) // 8
    if len(raw_sig) != 2 * size:
        raise ValueError("Invalid signature")
    return _der(0x30, b"".join(_der(2, _positive(it)) for it in (raw_sig[:size], raw_sig[size:])))


def _positive(octets: bytes) -> bytes:
    # with a bit for the sign
    number = int.from_bytes(octets, "big")
    return number.to_bytes(number.bit_length() // 8 + 1, "big")


def _der(tag: int, content: bytes) -> bytes:
    # two numbers of 49 bytes at most have a length of one byte
    return bytes([tag, len(content)]) + content


def _algorithm_of(curve: Any) -> str:
    if curve.key_size not in _ES or curve.name not in ("secp256r1", "secp384r1"):
        raise ValueError(f"the curve is {curve.name}, and not P-256 or P-384")
    return _ES[curve.key_size]


def is_pem_format(key: bytes) -> bool:
    """Returns whether a text has a block in PEM."""
    return b"-----BEGIN " in key and b"-----END " in key


def is_ssh_key(key: bytes) -> bool:
    """Returns whether a text begins as a public key of SSH."""
    return key.startswith((b"ssh-", b"ecdsa-sha2-nistp"))


__all__ = [
    "base64url_decode",
    "base64url_encode",
    "bytes_from_int",
    "bytes_to_number",
    "der_to_raw_signature",
    "force_bytes",
    "from_base64url_uint",
    "is_pem_format",
    "is_ssh_key",
    "number_to_bytes",
    "raw_to_der_signature",
    "to_base64url_uint",
]
