"""Names that PyJWT has in its module of this name."""
from collections.abc import Callable, Iterator
from typing import Any, Protocol, TypedDict

JWKDict = dict[str, Any]
HashlibHash = Callable[..., Any]


class Listed(Protocol):
    """A list, tuple or set of names. For a type checker a text is none: it is asked for texts alone."""

    def __contains__(self, name: object, /) -> bool: ...

    def __iter__(self) -> Iterator[str]: ...


class PublicKey(Protocol):
    """A public key of the package `cryptography`."""

    def public_bytes(self, encoding: Any, format: Any, /) -> bytes: ...


class PrivateKey(Protocol):
    """A private key of the package `cryptography`, or one with its calls, such as that of a KMS."""

    def public_key(self) -> Any: ...

    @property
    def sign(self) -> Callable[..., bytes]: ...


class Options(TypedDict, total=False):
    """The options of a verification, each of which may be left out."""

    verify_signature: bool
    verify_exp: bool
    verify_nbf: bool
    verify_iat: bool
    verify_aud: bool
    verify_iss: bool
    verify_sub: bool
    verify_jti: bool
    strict_aud: bool
    require: Listed


__all__ = ["HashlibHash", "JWKDict", "Options"]
