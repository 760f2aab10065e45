"""Signatures that are checked or made elsewhere, such as with a key that is kept in a KMS or an HSM."""
import ctypes
from collections.abc import Mapping
from typing import Any, NamedTuple

from ._encoding import members_of, message_of, payload_of, unsignable, written
from ._handles import Keys
from ._keys import Key, bytes_of, keys_of, one, one_for, raw_of
from ._library import ALGORITHMS, Handle, Refusal, answer, library, number_of, slices
from ._refusals import exception_of
from ._rules import Moment, Names, exact_str, names_nearest, options_of, rules_of, wrong_type
from ._status import Status
from ._unverified import Token, token_of
from ._verifier import moment_of, read_json
from .types import Listed, Options


class SignedPart(NamedTuple):
    """The parts of a token that have to be checked: the algorithm that its header names, the message, and the signature's bytes."""

    algorithm: str
    message: bytes
    signature: bytes


class SigningInput(NamedTuple):
    """The parts of a token that is to be signed: the algorithm of its header, and the message."""

    algorithm: str
    message: bytes


def signed_part(token: Token) -> SignedPart:
    """Returns the parts of a token that have to be checked. Nothing is verified: its header names the algorithm.

    A signature with ES256 or ES384 is two numbers one after the other (RFC 7518 section 3.4).
    """
    content, number, length = token_of("token", token), ctypes.c_uint32(), ctypes.c_size_t()
    try:
        signature = answer(library.jwt_signed_part, *slices(content), number, length)
    except Refusal as refusal:
        raise exception_of(refusal, content, rules_of()) from None
    return SignedPart(ALGORITHMS[number.value - 1], content[: length.value], signature)


@names_nearest
def decode_by_verdict(
    token: Token,
    part: SignedPart,
    verdict: bool,
    algorithms: Listed,
    options: Options | None = None,
    audience: Names = None,
    issuer: Names = None,
    subject: str | None = None,
    leeway: Moment = 0,
    *,
    understood_crit: Names = None,
    now: float | None = None,
) -> dict[str, Any]:
    """Returns the claims of a token whose signature the caller has checked, with the algorithm that its key is for.

    `verdict` is True if the signature of `part` is one of its message. The token is refused if it is False, if the part is not that of
    the token, or if a test of `decode` other than that of the signature fails.
    """
    if not isinstance(part, SignedPart):
        raise wrong_type("part", "a SignedPart", part)
    if not isinstance(verdict, bool):
        raise wrong_type("verdict", "True or False", verdict)
    rules = rules_of(algorithms, options_of(options), audience, issuer, subject, leeway, understood_crit)
    if not rules.algorithms:
        raise ValueError("algorithms is empty")
    number = number_of(_algorithm("part.algorithm", part.algorithm))
    checked = [number, *slices(bytes_of("part.message", part.message), raw_of("part.signature", part.signature)), verdict]
    content, claim = token_of("token", token), ctypes.c_uint32()
    asked = [*slices(content), *checked, *slices(rules.text(rules.algorithms)), moment_of(now), claim]
    try:
        claims: dict[str, Any] = read_json(str(answer(library.jwt_decode_verdict, *asked), "utf-8"))
    except Refusal as refusal:
        refusal.claim = claim.value
        # the header has been read, so that JSON which is refused is the payload's
        raise exception_of(refusal, content, rules, True) from None
    return claims


def verify(message: str | bytes | bytearray | memoryview, signature: bytes, key: Key, algorithm: str) -> bool:
    """Returns whether a signature is one of a message, with a key and this algorithm. No header and no claims are read: `decode` verifies tokens.

    A signature with ES256 or ES384 is two numbers one after the other, which `ecdsa_signature` makes of one in DER.
    """
    asked = bytes_of("message", message), raw_of("signature", signature)
    return is_signed(*asked, keys_of(key), exact_str(_algorithm("algorithm", algorithm)))


def is_signed(message: bytes, signature: bytes, keys: Keys, algorithm: str) -> bool:
    """Returns whether the library accepts a signature of a message. Raises InvalidKeyError if the key is not for the algorithm."""
    return one_for(keys, algorithm).of_one().accepts(algorithm, message, signature)


def signing_input(payload: Mapping[str, Any], algorithm: str, headers: Mapping[str, Any] | None = None) -> SigningInput:
    """Returns the message of a token that is to be signed elsewhere. The arguments are those of `encode`."""
    members = members_of(_algorithm("algorithm", algorithm), headers)
    try:
        return SigningInput(*message_of(written("headers", members, sorts=True), payload_of(payload)))
    except Refusal as refusal:
        raise unsignable(refusal) from None


def encode_by_signature(part: SigningInput, signature: bytes, key: Key | None = None) -> str:
    """Returns the token of a message that `signing_input` returned, and of its signature, which the library verifies with the public `key`.

    A signature with ES256 or ES384 is two numbers one after the other, which `ecdsa_signature` makes of one in DER. If the key is None,
    the length of the signature alone is checked.
    """
    if not isinstance(part, SigningInput):
        raise wrong_type("part", "the SigningInput that signing_input returned", part)
    message, made = bytes_of("part.message", part.message), raw_of("signature", signature)
    try:
        if key is not None:
            return one(keys_of(key)).of_one().attached(message, made)
        return str(answer(library.jwt_attach, Handle(), *slices(message, made)), "utf-8")
    except Refusal as refusal:
        raise unsignable(refusal) from None


def ecdsa_signature(der: bytes, algorithm: str) -> bytes:
    """Returns a signature with ES256 or ES384 as two numbers (RFC 7518 section 3.4), from one in DER that a KMS or `cryptography` made."""
    number = number_of(_algorithm("algorithm", algorithm))
    try:
        return answer(library.jwt_ecdsa_signature, *slices(raw_of("der", der)), number)
    except Refusal as refusal:
        if refusal.status == Status.INVALID_ALGORITHM:
            raise ValueError(f"algorithm must be ES256 or ES384, not {algorithm}") from None
        raise ValueError(f"der is not a signature with {algorithm} in DER") from None


def _algorithm(name: str, value: Any) -> str:
    if not isinstance(value, str):
        raise wrong_type(name, "a string", value)
    if not number_of(value):
        raise ValueError(f"{name} must be one of {', '.join(ALGORITHMS)}, not {value!r}")
    return value
