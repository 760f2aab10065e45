"""Signs with private keys, by the package cryptography. The library writes the message, and verifies the token before it is returned."""
import functools
import json
from collections.abc import Callable
from typing import Any

from . import _cryptography
from ._encoding import message_of
from ._handles import Keys
from ._keys import PyJWK, PyJWKSet, bytes_of, is_of_cryptography, is_private, keys_of, keys_of_public, one_for
from ._library import no_fork
from ._rules import wrong_type
from ._signatures import ecdsa_signature
from .exceptions import InvalidKeyError

# algorithms that have signed once, by cryptography
_used: set[str] = set()


def signs(private: Any, algorithm: str) -> Callable[[bytes], bytes]:
    """Returns what signs a message with a private key that is of the algorithm's kind. A fork waits for the first signature, since
    cryptography and OpenSSL take locks for it."""
    sign = _signs(private, algorithm)

    def first(message: bytes) -> bytes:
        if algorithm in _used:
            return sign(message)
        with no_fork:
            made = sign(message)
        _used.add(algorithm)
        return made

    # another signer, such as a KMS, may take long, or fork
    return first if is_of_cryptography(private) else sign


def _signs(private: Any, algorithm: str) -> Callable[[bytes], bytes]:
    from cryptography.hazmat.primitives import hashes
    from cryptography.hazmat.primitives.asymmetric import ec, padding

    if algorithm == "EdDSA":
        return private.sign  # type: ignore[no-any-return]
    digest = getattr(hashes, f"SHA{algorithm[2:]}")()
    if algorithm.startswith("ES"):
        return lambda message: ecdsa_signature(private.sign(message, ec.ECDSA(digest)), algorithm)
    if algorithm.startswith("PS"):
        padded = padding.PSS(padding.MGF1(digest), digest.digest_size)
        return lambda message: private.sign(message, padded, digest)  # type: ignore[no-any-return]
    return pkcs1_signs(private, digest)


def pkcs1_signs(private: Any, digest: Any) -> Callable[[bytes], bytes]:
    """Returns what signs a message with a private key of RSA by RSASSA-PKCS1-v1_5 (RFC 8017 section 8.2)."""
    from cryptography.hazmat.primitives.asymmetric.padding import PKCS1v15

    return lambda message: private.sign(message, PKCS1v15(), digest)  # type: ignore[no-any-return]


class Signer:
    """A private key for one algorithm, and its public half as the library has read it."""

    def __init__(self, private: Any, public: Keys, algorithm: str) -> None:
        self._verifier = one_for(public, algorithm).of_one()
        self._signs = signs(private, algorithm)

    def signed(self, header: bytes, payload: bytes) -> str:
        """Returns the token of a header and a payload. Raises Refusal, or MemoryError."""
        message = message_of(header, payload)[1]
        return self._verifier.attached(message, self._signs(message))


@functools.lru_cache(maxsize=64)
def _signer_of(key: Any, algorithm: str) -> Signer:
    """Returns what signs with a private key: the text of one in PEM, a JSON Web Key, or one of `cryptography`."""
    if isinstance(key, Keys):
        found = json.loads(one_for(key, algorithm).given)
        if "d" not in found:
            raise InvalidKeyError(f"the key is not private, and {algorithm} signs with the private one")
        return Signer(_cryptography.of_jwk(found), key, algorithm)
    private = _cryptography.of_pem(key) if isinstance(key, bytes) else key
    return Signer(private, keys_of_public(private.public_key()), algorithm)


def _secret_of(key: Any, algorithm: str) -> Keys:
    try:
        return one_for(keys_of(key), algorithm)
    except (InvalidKeyError, TypeError):
        if is_private(key) or isinstance(key, (str, bytes, bytearray, memoryview)) and b"PRIVATE KEY-----" in bytes_of("key", key):
            why = f'{algorithm} signs with a secret, and this is a private key: give its algorithm, such as algorithm="RS256"'
            raise InvalidKeyError(why) from None
        raise


def signer_of(key: Any, algorithm: str) -> Keys | Signer:
    """Returns what signs with a secret, or with a private key in PEM, of `cryptography`, or as a JSON Web Key."""
    if algorithm.startswith("HS"):
        return _secret_of(key, algorithm)
    _cryptography.need(f"signing with {algorithm}")
    if isinstance(key, (str, bytes, bytearray, memoryview)):
        text = bytes_of("key", key)
        if b"-----BEGIN" not in text:
            raise InvalidKeyError(f"the key is not a private key in PEM, and {algorithm} signs with one")
        return _signer_of(text, algorithm)
    if isinstance(key, (dict, PyJWK, PyJWKSet)):
        return _signer_of(keys_of(key), algorithm)
    if is_private(key):
        return _signer_of(key, algorithm)
    if hasattr(key, "public_bytes"):
        raise InvalidKeyError(f"the key is public, and {algorithm} signs with the private one")
    raise wrong_type("key", "a private key in PEM, of cryptography, or as a JSON Web Key", key)
