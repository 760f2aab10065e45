"""The exceptions for the library's refusals."""
import json
from typing import Any

from . import exceptions
from ._handles import Keys
from ._library import Refusal, test_of, text_of
from ._rules import Rules
from ._status import CLAIM_IAT, Status
from ._unverified import header_of

UNLISTED_ALG = "The specified alg value is not allowed"
BAD_CRIT = "the header's crit names what is not understood"
# The statuses that have an exception and a text of their own. Any other is a DecodeError with the library's text.
_EXCEPTIONS: dict[int, tuple[type[Exception], str]] = {
    Status.INVALID_TOKEN: (exceptions.DecodeError, "Not enough segments"),
    Status.INVALID_SIGNATURE: (exceptions.InvalidSignatureError, "Signature verification failed"),
    # the header names the key of a set, so that this refuses a token as another alg does
    Status.INVALID_KEY_FORMAT: (exceptions.InvalidAlgorithmError, "the key that the kid names is for other algorithms"),
    Status.EXPIRED_SIGNATURE: (exceptions.ExpiredSignatureError, "Signature has expired"),
    Status.INVALID_ISSUER: (exceptions.InvalidIssuerError, "Invalid issuer"),
    Status.INVALID_SUBJECT: (exceptions.InvalidSubjectError, "Invalid subject"),
    Status.INVALID_ALGORITHM: (exceptions.InvalidAlgorithmError, UNLISTED_ALG),
    Status.BASE64: (exceptions.DecodeError, "a part of the token is not base64url"),
    Status.JSON: (exceptions.DecodeError, "Invalid header string: must be a json object with the alg of a signature that is known"),
    Status.INVALID_CRIT: (exceptions.DecodeError, BAD_CRIT),
    Status.MALFORMED_EXP: (exceptions.DecodeError, "Expiration Time claim (exp) must be an integer."),
    Status.MALFORMED_NBF: (exceptions.DecodeError, "Not Before claim (nbf) must be an integer."),
    Status.MALFORMED_ISS: (exceptions.InvalidIssuerError, "Invalid claim format in token"),
    Status.MALFORMED_SUB: (exceptions.InvalidSubjectError, "Invalid claim format in token"),
    Status.TOKEN_TOO_LONG: (exceptions.DecodeError, "the token is longer than the verifier allows"),
    Status.BAD_OPTIONS: (ValueError, "audience, issuer, subject, understood_crit or require has what the library does not read"),
}
# The same, if a test of the payload failed.
_OF_CLAIMS: dict[int, tuple[type[Exception], str]] = {
    Status.JSON: (exceptions.DecodeError, "Invalid payload string: must be a json object"),
    # an exp of 0 is before every time
    Status.INVALID_TOKEN: (exceptions.ExpiredSignatureError, "Signature has expired"),
}
_TESTS_OF_CLAIMS = ("PayloadIsJson", "ClaimsAreAnObject", "ClaimsAreValid", "FurtherRulesHold")
# by the test of a part
_PARTS = {"HeaderIsBase64url": "Invalid header padding", "PayloadIsBase64url": "Invalid payload padding", "SignatureIsBase64url": "Invalid crypto padding"}
_MISSING: dict[int, str] = {
    Status.MISSING_EXP: "exp",
    Status.MISSING_NBF: "nbf",
    Status.MISSING_AUD: "aud",
    Status.MISSING_ISS: "iss",
    Status.MISSING_SUB: "sub",
}
# by the claim that is malformed
_MALFORMED: dict[str, tuple[type[Exception], str]] = {
    "iat": (exceptions.InvalidIssuedAtError, "Issued At claim (iat) must be an integer."),
    "sub": (exceptions.InvalidSubjectError, "Subject must be a string"),
    "jti": (exceptions.InvalidJTIError, "JWT ID must be a string"),
}


def unknown(kid: Any) -> exceptions.UnknownKeyError:
    """Returns the refusal of a token with this kid, if it has one, by a set that has no such key."""
    if kid is None:
        return exceptions.UnknownKeyError("the header has no kid, and names no key of the set")
    shown = json.dumps(kid if len(kid) <= 100 else f"{kid[:100]}..")
    return exceptions.UnknownKeyError(f"Unable to find a signing key that matches: {shown}")


def _kind_of(refusal: Refusal, rules: Rules, is_of_claims: bool) -> tuple[type[Exception], str]:
    """Returns the exception's class for a refusal, and its text, or the name of a claim that is missing."""
    strict = " (strict)" if rules.one_audience else ""
    match refusal.status:
        case status if status in _MISSING:
            return exceptions.MissingRequiredClaimError, _MISSING[status]
        case Status.MISSING_CLAIM:
            return exceptions.MissingRequiredClaimError, rules.required[refusal.claim - 1]
        case Status.MALFORMED_CLAIM:
            return _MALFORMED["iat" if refusal.claim == CLAIM_IAT else rules.texts[refusal.claim - 1]]
        case Status.MALFORMED_AUD:
            return exceptions.InvalidAudienceError, f"Invalid claim format in token{strict}"
        case Status.INVALID_AUDIENCE:
            return exceptions.InvalidAudienceError, f"Audience doesn't match{strict}" if rules.audience else "Invalid audience"
        case Status.IMMATURE_SIGNATURE:
            name = "iat" if refusal.claim == CLAIM_IAT else "nbf"
            return exceptions.ImmatureSignatureError, f"The token is not yet valid ({name})"
        case status if is_of_claims and status in _OF_CLAIMS:
            return _OF_CLAIMS[status]
    return _EXCEPTIONS.get(refusal.status) or (exceptions.DecodeError, text_of(refusal.status))


def exception_of(refusal: Refusal, token: bytes, rules: Rules, is_of_claims: bool = False) -> Exception:
    """Returns the exception, with its `failed_test`, for the refusal of a token under rules, or if `is_of_claims` of its payload."""
    failed_test = test_of(refusal.test) if refusal.test else None
    kind, text = _kind_of(refusal, rules, is_of_claims or failed_test in _TESTS_OF_CLAIMS)
    error = unknown(header_of(token).get("kid")) if refusal.status == Status.NO_KEY else kind(_PARTS.get(failed_test or "", text))
    if isinstance(error, exceptions.InvalidTokenError):
        error.failed_test = failed_test
    return error


def exception_of_making(refusal: Refusal, keys: Keys, rules: Rules) -> Exception:
    """Returns the exception for keys and rules that make no verifier."""
    if refusal.status != Status.NO_USABLE_KEY:
        return exception_of(refusal, b"", rules)
    which, each = ("no key of the set fits", "each has no kid, or") if keys.is_set else ("the key does not fit", "it")
    skipped = f"; {keys.skipped}" if keys.skipped else ""
    names = ", ".join(rules.algorithms)
    return exceptions.InvalidKeyError(f"{which} the algorithms {names}: {each} is of another type, or for another alg{skipped}")
