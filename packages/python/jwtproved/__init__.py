"""JSON Web Tokens (RFC 7519), verified by a library whose contracts are proved, under the names of PyJWT."""
from typing import TYPE_CHECKING, Any

from . import api_jwk, api_jwt, jwks_client
from ._api import PyJWT, decode, decode_complete, encode
from ._client import PyJWKClient
from ._keys import PyJWK, PyJWKSet, thumbprint
from ._library import no_fork as _no_fork
from ._signatures import SignedPart, SigningInput, decode_by_verdict, ecdsa_signature, encode_by_signature, signed_part, signing_input, verify
from ._unverified import get_unverified_header
from ._verifier import ByIssuer, Verifier
from .exceptions import *

if TYPE_CHECKING:
    from . import algorithms, api_jws, types, utils, warnings
    from .api_jws import PyJWS, get_algorithm_by_name, register_algorithm, unregister_algorithm

__version__ = "0.2.0"

# what loads cryptography, or what most programs do not use, is loaded when it is asked for
_MODULES = ("algorithms", "api_jws", "types", "utils", "warnings")
_OF_API_JWS = ("PyJWS", "get_algorithm_by_name", "register_algorithm", "unregister_algorithm")


def __getattr__(name: str) -> Any:
    import importlib

    with _no_fork:
        if name in _MODULES:
            return importlib.import_module(f"{__name__}.{name}")
        if name in _OF_API_JWS:
            return getattr(importlib.import_module(f"{__name__}.api_jws"), name)
    raise AttributeError(f"module {__name__!r} has no attribute {name!r}")


__all__ = [
    "ByIssuer", "ClockError", "DecodeError", "ExpiredSignatureError", "ImmatureSignatureError", "InvalidAlgorithmError",
    "InvalidAudienceError", "InvalidIssuedAtError", "InvalidIssuerError", "InvalidJTIError", "InvalidKeyError", "InvalidSignatureError",
    "InvalidSubjectError", "InvalidTokenError", "MissingCryptographyError", "MissingRequiredClaimError", "PyJWK", "PyJWKClient",
    "PyJWKClientConnectionError", "PyJWKClientError", "PyJWKError", "PyJWKSet", "PyJWKSetError", "PyJWS", "PyJWT", "PyJWTError",
    "SignedPart", "SigningInput", "UnknownKeyError", "UnusableSetError", "Verifier", "decode", "decode_by_verdict", "decode_complete",
    "ecdsa_signature", "encode", "encode_by_signature", "get_algorithm_by_name", "get_unverified_header", "register_algorithm",
    "signed_part", "signing_input", "thumbprint", "unregister_algorithm", "verify",
]
