"""The algorithms by the names of PyJWT: each signs, by hmac or by the package cryptography, and verifies by the library."""
import hashlib
import hmac
import importlib.util
import json
from abc import ABC, abstractmethod
from collections.abc import Callable
from typing import Any, ClassVar, NoReturn

from . import _cryptography
from ._handles import Keys
from ._keys import PyJWK, bytes_of, is_private, keys_of, keys_of_public, one
from ._library import ALGORITHMS
from ._rules import wrong_type
from ._signatures import is_signed
from ._signing import pkcs1_signs, signs
from .exceptions import InvalidKeyError
from .utils import base64url_encode

has_crypto = importlib.util.find_spec("cryptography") is not None
if has_crypto:
    from cryptography.hazmat.primitives import hashes

# also those of PyJWT that are none of the twelve
requires_cryptography = {
    *("RS256", "RS384", "RS512", "PS256", "PS384", "PS512"),
    *("ES256", "ES256K", "ES384", "ES512", "ES521", "EdDSA"),
}


def get_default_algorithms() -> dict[str, "Algorithm"]:
    """Returns the algorithms by their names: `none`, which verifies nothing, and the twelve, or without `cryptography` those of HMAC."""
    found: dict[str, Algorithm] = {"none": NoneAlgorithm()}
    for bits in (256, 384, 512):
        found[f"HS{bits}"] = HMACAlgorithm(getattr(HMACAlgorithm, f"SHA{bits}"))
    if has_crypto:
        for bits in (256, 384, 512):
            found[f"RS{bits}"] = RSAAlgorithm(getattr(RSAAlgorithm, f"SHA{bits}"))
            found[f"PS{bits}"] = RSAPSSAlgorithm(getattr(RSAPSSAlgorithm, f"SHA{bits}"))
        found |= {"ES256": ECAlgorithm(ECAlgorithm.SHA256), "ES384": ECAlgorithm(ECAlgorithm.SHA384), "EdDSA": OKPAlgorithm()}
    return found


def _object(jwk: str | dict[str, Any], key_type: str, error: str) -> dict[str, Any]:
    """Returns a JSON Web Key of this type (RFC 7518 section 6.1), which verifies tokens."""
    try:
        found = json.loads(jwk) if isinstance(jwk, str) else jwk
    except ValueError:
        found = None
    if not isinstance(found, dict):
        raise InvalidKeyError("Key is not valid JSON")
    if found.get("kty") != key_type:
        raise InvalidKeyError(error)
    one(keys_of(found))
    return found


def _written(jwk: dict[str, Any], as_dict: bool) -> Any:
    return jwk if as_dict else json.dumps(jwk)


class Algorithm(ABC):
    """An algorithm that signs and verifies. `name` is that of the twelve, or None for one of another digest, which verifies nothing."""

    name: str | None = None
    hash_alg: Any = None

    def compute_hash_digest(self, bytestr: bytes) -> bytes:
        """Returns the digest of bytes by the algorithm's hash. Raises NotImplementedError if it has none of its own."""
        if self.hash_alg is None:
            raise NotImplementedError
        made = self.hash_alg() if has_crypto and isinstance(self.hash_alg, type) and issubclass(self.hash_alg, hashes.HashAlgorithm) else None
        return hashlib.new(made.name, bytestr).digest() if made is not None else bytes(self.hash_alg(bytestr).digest())

    @abstractmethod
    def prepare_key(self, key: Any) -> Any:
        """Returns the key that `sign` and `verify` take. Raises InvalidKeyError, or TypeError."""

    @abstractmethod
    def sign(self, msg: bytes, key: Any) -> bytes:
        """Returns the signature of a message."""

    def verify(self, msg: bytes, key: Any, sig: bytes) -> bool:
        """Returns whether the library accepts the signature of a message. Raises InvalidKeyError if the key does not serve the algorithm."""
        return is_signed(bytes_of("msg", msg), bytes_of("sig", sig), self._keys(key), self._named("verifies"))

    def _named(self, does: str) -> str:
        if self.name is None:
            raise NotImplementedError(f"no algorithm of this digest {does}")
        return self.name

    def _keys(self, key: Any) -> Keys:
        return keys_of(key) if isinstance(key, PyJWK) else keys_of_public(key.public_key() if is_private(key) else key)

    def _of_jwk(self, key: Any) -> Any:
        """Returns the key of a PyJWK, and any other as it is."""
        return self.from_jwk(key._jwk_data) if isinstance(key, PyJWK) else key

    @staticmethod
    @abstractmethod
    def to_jwk(key_obj: Any, as_dict: bool = False) -> Any:
        """Returns a key as a JSON Web Key, which is a text, or a dict."""

    @classmethod
    @abstractmethod
    def from_jwk(cls, jwk: str | dict[str, Any]) -> Any:
        """Returns the key of a JSON Web Key. Raises InvalidKeyError."""


class NoneAlgorithm(Algorithm):
    """The algorithm `none`: its signature is empty, and it verifies nothing."""

    def prepare_key(self, key: Any) -> None:
        if key not in (None, ""):
            raise InvalidKeyError('When alg = "none", key value must be None.')

    def sign(self, msg: bytes, key: Any) -> bytes:
        return b""

    def verify(self, msg: bytes, key: Any, sig: bytes) -> bool:
        return False

    @staticmethod
    def to_jwk(key_obj: Any, as_dict: bool = False) -> NoReturn:
        raise NotImplementedError

    @classmethod
    def from_jwk(cls, jwk: str | dict[str, Any]) -> NoReturn:
        raise NotImplementedError


class _OfDigest(Algorithm):
    """An algorithm of a digest, whose name ends in the digest's bits."""

    _prefix: str

    def __init__(self, hash_alg: Any) -> None:
        names = {getattr(self, f"SHA{bits}"): f"{self._prefix}{bits}" for bits in (256, 384, 512)}
        self.hash_alg, named = hash_alg, names.get(hash_alg)
        self.name = named if named in ALGORITHMS else None


class HMACAlgorithm(_OfDigest):
    """HMAC with SHA-2. A key is a secret, which others must not know."""

    SHA256: ClassVar[Any] = hashlib.sha256
    SHA384: ClassVar[Any] = hashlib.sha384
    SHA512: ClassVar[Any] = hashlib.sha512
    _prefix = "HS"

    def prepare_key(self, key: Any) -> bytes:
        key = self._of_jwk(key)
        if not isinstance(key, (str, bytes, bytearray, memoryview)):
            raise TypeError("Expected a string value")
        keys = keys_of(bytes_of("key", key))
        if not keys.is_secret:
            raise InvalidKeyError("the key is public, and is no secret of HMAC")
        return keys.given

    def sign(self, msg: bytes, key: Any) -> bytes:
        return hmac.new(self._of_jwk(key), msg, self.hash_alg).digest()

    def _keys(self, key: Any) -> Keys:
        return keys_of(key)

    @staticmethod
    def to_jwk(key_obj: str | bytes, as_dict: bool = False) -> Any:
        return _written({"kty": "oct", "k": base64url_encode(bytes_of("key_obj", key_obj)).decode()}, as_dict)

    @classmethod
    def from_jwk(cls, jwk: str | dict[str, Any]) -> bytes:
        return _cryptography.octets(_object(jwk, "oct", "Not an HMAC key"), "k")


class _OfCryptography(_OfDigest):
    """An algorithm whose keys are those of `cryptography`."""

    # the type of its JSON Web Keys, and the error for one of another type
    _key_type: str
    _is_of_another: str

    def prepare_key(self, key: Any) -> Any:
        """Returns a key of `cryptography` as it is, and reads a PyJWK, or one in PEM, which is public or private."""
        _cryptography.need(self.name or "this algorithm")
        key = self._of_jwk(key)
        if isinstance(key, (str, bytes, bytearray, memoryview)):
            key = _cryptography.of_any_pem(bytes_of("key", key))
        elif not is_private(key) and not hasattr(key, "public_bytes"):
            raise wrong_type("key", "a key in PEM, or one of cryptography", key)
        if json.loads(self._keys(key).text())["kty"] != self._key_type:
            raise InvalidKeyError(f"the key is not of the type {self._key_type}")
        return key

    def sign(self, msg: bytes, key: Any) -> bytes:
        key = self._of_jwk(key)
        if not is_private(key):
            raise InvalidKeyError("the key is public, and signing needs the private one")
        return self._signs(key)(msg)

    def _signs(self, key: Any) -> Callable[[bytes], bytes]:
        return signs(key, self._named("signs"))

    @staticmethod
    def to_jwk(key_obj: Any, as_dict: bool = False) -> Any:
        return _written(_cryptography.jwk_of(key_obj), as_dict)

    @classmethod
    def from_jwk(cls, jwk: str | dict[str, Any]) -> Any:
        return _cryptography.of_jwk(_object(jwk, cls._key_type, cls._is_of_another))


class RSAAlgorithm(_OfCryptography):
    """RSASSA-PKCS1-v1_5 with SHA-2. With another digest it signs alone, as for OAuth 1 (RFC 5849 section 3.4.3), and verifies nothing."""

    _key_type, _is_of_another = "RSA", "Not an RSA key"
    if has_crypto:
        SHA256, SHA384, SHA512 = hashes.SHA256, hashes.SHA384, hashes.SHA512
    _prefix = "RS"

    def _signs(self, key: Any) -> Callable[[bytes], bytes]:
        return super()._signs(key) if self.name or self._prefix != "RS" else pkcs1_signs(key, self.hash_alg())


class RSAPSSAlgorithm(RSAAlgorithm):
    """RSASSA-PSS with SHA-2 and a salt of the digest's length."""

    _prefix = "PS"


class ECAlgorithm(_OfCryptography):
    """ECDSA with P-256 and SHA-256, or P-384 and SHA-384."""

    _key_type, _is_of_another = "EC", "Not an Elliptic curve key"
    if has_crypto:
        SHA256, SHA384, SHA512 = hashes.SHA256, hashes.SHA384, hashes.SHA512
    _prefix = "ES"


class OKPAlgorithm(_OfCryptography):
    """EdDSA with Ed25519."""

    _key_type, _is_of_another, name = "OKP", "Not an Octet Key Pair", "EdDSA"

    def __init__(self, **kwargs: Any) -> None:
        pass

    @staticmethod
    def to_jwk(key: Any, as_dict: bool = False) -> Any:
        return _written(_cryptography.jwk_of(key), as_dict)

