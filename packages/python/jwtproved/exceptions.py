"""The exceptions of PyJWT, by name. A token that is refused raises one below InvalidTokenError, and a key one of the others."""


class PyJWTError(Exception):
    """The base of all exceptions of this package."""


class InvalidTokenError(PyJWTError):
    """The token is refused. `failed_test` is the name of the test of the library that failed (docs/RULES.md), for a log.

    It is None if PyJWKClient or PyJWS rejects the token, or a PyJWK fits no algorithm of the list, and in `decode_by_verdict` and
    with `verify_signature` False.
    """

    failed_test: str | None = None


class DecodeError(InvalidTokenError):
    """The token, its header or its payload can't be read, or a claim that is checked is malformed."""


class InvalidSignatureError(DecodeError):
    """The signature is not that of the token by the key."""


class InvalidAlgorithmError(InvalidTokenError):
    """The algorithm that the header names is not among those that are listed and that the key is for."""


class ExpiredSignatureError(InvalidTokenError):
    """The token has expired: its `exp` is not after now, less the leeway."""


class ImmatureSignatureError(InvalidTokenError):
    """The token is not valid yet: its `nbf` or its `iat` is after now and the leeway."""


class InvalidIssuedAtError(InvalidTokenError):
    """The `iat` is not a number."""


class InvalidAudienceError(InvalidTokenError):
    """The `aud` has none of the audiences that are asked for, or is malformed, or is there although none is asked for."""


class InvalidIssuerError(InvalidTokenError):
    """The `iss` is none of the issuers that are asked for, or is malformed."""


class InvalidSubjectError(InvalidTokenError):
    """The `sub` is another than is asked for, or no text."""


class InvalidJTIError(InvalidTokenError):
    """The `jti` is no text."""


class MissingRequiredClaimError(InvalidTokenError):
    """A claim that is required is missing, or malformed, which counts as missing. `claim` is its name."""

    def __init__(self, claim: str) -> None:
        super().__init__(claim)
        self.claim = claim

    def __str__(self) -> str:
        return f'Token is missing the "{self.claim}" claim'


class PyJWKClientError(PyJWTError):
    """The set that was fetched can't be read, or has no key that signs."""


class PyJWKClientConnectionError(PyJWKClientError):
    """The set can't be fetched."""


class UnknownKeyError(InvalidTokenError, PyJWKClientError):
    """The header names no key of the set by its `kid`: the text has the `kid`, or says that the header has none."""


class InvalidKeyError(PyJWTError):
    """The key can't be read, is for no algorithm that is listed, or is a secret with which anyone can sign."""


class PyJWKError(PyJWTError):
    """The JSON Web Key can't be read, or no token is verified with a key of its kind."""


class MissingCryptographyError(PyJWKError):
    """A name of PyJWT's: no key here needs the package `cryptography` to be read."""


class PyJWKSetError(PyJWTError):
    """The JSON Web Key Set can't be read, or has no key that verifies tokens."""


class UnusableSetError(PyJWKClientError, PyJWKSetError):
    """The set that was fetched has no key that verifies tokens: the text has the reason for each of its keys."""


class ClockError(PyJWTError):
    """The system clock is before 1970-01-01, or not a number, so that no token can be judged. PyJWT has no such exception."""
