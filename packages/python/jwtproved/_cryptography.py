"""Private keys of the package cryptography. It is imported once a key needs it, which takes long.

The library reads public keys alone: it tells for which algorithms a key is, and what more a private one has is read and written here.
"""
import functools
import json
from typing import Any

from ._keys import is_private, keys_of_public
from ._library import before_fork, no_fork
from ._unverified import octets_of
from .exceptions import DecodeError, InvalidKeyError
from .utils import base64url_encode, to_base64url_uint


def need(what: str) -> None:
    """Loads the package. Raises NotImplementedError if it is not installed."""
    try:
        with no_fork:
            import cryptography  # noqa: F401
    except ImportError:
        raise NotImplementedError(f"{what} needs the package cryptography, which `pip install 'jwtproved[crypto]'` brings") from None
    _load()


@functools.cache
def _load() -> None:
    """Imports what the calls below import, and what the package imports for its first signature."""
    with no_fork:
        from cryptography import exceptions  # noqa: F401
        from cryptography.hazmat.backends import default_backend
        from cryptography.hazmat.primitives import hashes, serialization  # noqa: F401
        from cryptography.hazmat.primitives.asymmetric import ec, ed25519, padding, rsa  # noqa: F401

        default_backend()
        before_fork.append(_sign)


def _sign() -> None:
    """Signs once in this thread. When a thread first uses OpenSSL, or ends, OpenSSL takes a lock, which a child might find locked for ever."""
    from cryptography.hazmat.primitives.asymmetric.ed25519 import Ed25519PrivateKey

    Ed25519PrivateKey.generate().sign(b"")


def octets(jwk: dict[str, Any], name: str) -> bytes:
    """Returns the bytes of a member that is base64url (RFC 7515 section 2)."""
    try:
        return octets_of(jwk[name].encode(), name)
    except (KeyError, AttributeError, ValueError, DecodeError):
        raise InvalidKeyError(f"{name} of the key is missing, or not base64url") from None


def _number(jwk: dict[str, Any], name: str) -> int:
    return int.from_bytes(octets(jwk, name), "big")


def _rsa(jwk: dict[str, Any]) -> Any:
    from cryptography.hazmat.primitives.asymmetric import rsa

    public = rsa.RSAPublicNumbers(_number(jwk, "e"), _number(jwk, "n"))
    if "d" not in jwk:
        return public.public_key()
    if "oth" in jwk:
        raise InvalidKeyError("the key has more than two primes, which no token is signed with")
    d = _number(jwk, "d")
    if any(it in jwk for it in ("p", "q", "dp", "dq", "qi")):
        p, q, dp, dq, qi = (_number(jwk, it) for it in ("p", "q", "dp", "dq", "qi"))
    else:
        p, q = rsa.rsa_recover_prime_factors(public.n, public.e, d)
        dp, dq, qi = rsa.rsa_crt_dmp1(d, p), rsa.rsa_crt_dmq1(d, q), rsa.rsa_crt_iqmp(p, q)
    return rsa.RSAPrivateNumbers(p, q, d, dp, dq, qi, public).private_key()


def _ec(jwk: dict[str, Any]) -> Any:
    from cryptography.hazmat.primitives.asymmetric import ec

    curve = ec.SECP256R1() if jwk["crv"] == "P-256" else ec.SECP384R1()
    public = ec.EllipticCurvePublicNumbers(_number(jwk, "x"), _number(jwk, "y"), curve)
    return ec.EllipticCurvePrivateNumbers(_number(jwk, "d"), public).private_key() if "d" in jwk else public.public_key()


def _okp(jwk: dict[str, Any]) -> Any:
    from cryptography.hazmat.primitives.asymmetric import ed25519

    if "d" not in jwk:
        return ed25519.Ed25519PublicKey.from_public_bytes(octets(jwk, "x"))
    return ed25519.Ed25519PrivateKey.from_private_bytes(octets(jwk, "d"))


_READERS = {"RSA": _rsa, "EC": _ec, "OKP": _okp}


def of_jwk(jwk: dict[str, Any]) -> Any:
    """Returns the private key of a JSON Web Key that has d (RFC 7518 section 6, RFC 8037 section 2), and of another one the public key.

    The library has read its public members.
    """
    try:
        with no_fork:
            return _READERS[jwk["kty"]](jwk)
    except ValueError:
        # the text of the exception may show the key
        raise InvalidKeyError("the numbers of the key do not fit each other") from None


def of_pem(text: bytes) -> Any:
    """Returns the private key of a text in PEM."""
    from cryptography.exceptions import UnsupportedAlgorithm
    from cryptography.hazmat.primitives.serialization import load_pem_private_key

    try:
        with no_fork:
            return load_pem_private_key(text, password=None)
    except TypeError:
        raise InvalidKeyError("the private key is encrypted: load_pem_private_key of cryptography reads it with its password") from None
    except (ValueError, UnsupportedAlgorithm):
        is_public = b"PUBLIC KEY-----" in text or b"CERTIFICATE-----" in text
        why = "is public, and signing needs the private one" if is_public else "can't be read as a private key in PEM"
        raise InvalidKeyError(f"the key {why}") from None


def of_any_pem(text: bytes) -> Any:
    """Returns the private or public key of a text in PEM, or the public one of a line of SSH."""
    from cryptography.exceptions import UnsupportedAlgorithm
    from cryptography.hazmat.primitives.serialization import load_pem_public_key, load_ssh_public_key

    if b"PRIVATE KEY-----" in text:
        return of_pem(text)
    try:
        with no_fork:
            return load_ssh_public_key(text) if text.startswith((b"ssh-", b"ecdsa-sha2-")) else load_pem_public_key(text)
    except (ValueError, UnsupportedAlgorithm):
        raise InvalidKeyError("Could not parse the provided public key.") from None


def _whole(value: int, bits: int | None = None) -> str:
    return to_base64url_uint(value, bit_length=bits).decode()


def _secret_of(key: Any) -> dict[str, Any]:
    """Returns the members that the JSON Web Key of a private key has besides those of the public one."""
    from cryptography.hazmat.primitives.asymmetric import ed25519, rsa
    from cryptography.hazmat.primitives.serialization import Encoding, NoEncryption, PrivateFormat

    if isinstance(key, ed25519.Ed25519PrivateKey):
        return {"d": base64url_encode(key.private_bytes(Encoding.Raw, PrivateFormat.Raw, NoEncryption())).decode()}
    its = key.private_numbers()
    if not isinstance(key, rsa.RSAPrivateKey):
        return {"d": _whole(its.private_value, key.key_size)}
    names = {"d": its.d, "p": its.p, "q": its.q, "dp": its.dmp1, "dq": its.dmq1, "qi": its.iqmp}
    return {"key_ops": ["sign"], **{name: _whole(it) for name, it in names.items()}}


def jwk_of(key: Any) -> dict[str, Any]:
    """Returns the JSON Web Key of a public or private key of the package, whose public members the library writes."""
    from cryptography.hazmat.primitives.asymmetric import rsa

    public = key.public_key() if is_private(key) else key
    if not hasattr(public, "public_bytes"):
        raise InvalidKeyError("Not a public or private key")
    found: dict[str, Any] = json.loads(keys_of_public(public).text())
    if is_private(key):
        return {**found, **_secret_of(key)}
    # as PyJWT writes it
    return {**found, "key_ops": ["verify"]} if isinstance(key, rsa.RSAPublicKey) else found
