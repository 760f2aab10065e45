"""Tokens over any bytes, by the names of PyJWT. The library verifies the signature, and looks at no claim."""
import json
from typing import Any, Never

from . import _refusals
from ._encoding import members_of
from ._keys import Key, PyJWK, SigningKey, keys_of
from ._library import ALGORITHMS
from ._rules import arguments_of, check_keywords, listed, names_nearest, options_of, wrong_type
from ._signatures import is_signed, signed_part
from ._unverified import Token, get_unverified_header, header_of, octets_of, token_of
from .algorithms import Algorithm, get_default_algorithms
from .exceptions import DecodeError, InvalidAlgorithmError, InvalidKeyError, InvalidSignatureError
from .types import Listed, Options
from .utils import base64url_encode


class PyJWS:
    """Issues and verifies tokens whose payload is any bytes (RFC 7515). Of `algorithms`, all are served if it is None."""

    header_typ = "JWT"
    # see PyJWT
    _is_lenient = False

    def __init__(self, algorithms: Listed | None = None, options: Options | None = None) -> None:
        names = listed(algorithms, self._is_lenient)
        self._algorithms = {name: it for name, it in get_default_algorithms().items() if names is None or name in names}
        self.options: dict[str, Any] = {"verify_signature": True, **options_of(options, drops=True)}

    def get_algorithms(self) -> list[str]:
        """Returns the names of the algorithms that this object signs and verifies with."""
        return list(self._algorithms)

    def get_algorithm_by_name(self, alg_name: str) -> Algorithm:
        """Returns an algorithm. Raises NotImplementedError if this object has none of this name."""
        try:
            return self._algorithms[alg_name]
        except KeyError:
            raise NotImplementedError("Algorithm not supported") from None

    def register_algorithm(self, alg_id: str, alg_obj: Algorithm) -> None:
        """Raises an exception: the library alone verifies."""
        if alg_id in self._algorithms:
            raise ValueError("Algorithm already has a handler.")
        if not isinstance(alg_obj, Algorithm):
            raise TypeError("Object is not of type `Algorithm`")
        raise NotImplementedError(f"{alg_id!r} can't be registered: the library verifies with its own algorithms alone")

    def unregister_algorithm(self, alg_id: str) -> None:
        """Takes an algorithm from this object. Raises KeyError if it has none of this name."""
        if alg_id not in self._algorithms:
            raise KeyError("The specified algorithm could not be removed because it is not registered.")
        del self._algorithms[alg_id]

    @names_nearest
    def encode(
        self,
        payload: bytes,
        key: SigningKey,
        algorithm: str | None = None,
        headers: dict[str, Any] | None = None,
        json_encoder: type[json.JSONEncoder] | None = None,
        is_payload_detached: bool = False,
        sort_headers: bool = True,
    ) -> str:
        """Returns the token of these bytes, which the library has verified, but for one of `none`. A payload that is detached is left out
        of it, and is signed as it is (RFC 7797)."""
        members = members_of(algorithm or (key.algorithm_name if isinstance(key, PyJWK) else "HS256"), headers)
        is_detached = is_payload_detached or members.get("b64") is False
        members.pop("b64", None)
        if is_detached:
            members["b64"] = False
        made = self.get_algorithm_by_name(members["alg"])
        header = base64url_encode(json.dumps(members, separators=(",", ":"), cls=json_encoder, sort_keys=sort_headers).encode())
        message = b"%s.%s" % (header, payload if is_detached else base64url_encode(payload))
        prepared = made.prepare_key(key)
        signature = made.sign(message, prepared)
        if made.name is not None and not made.verify(message, prepared, signature):
            raise InvalidKeyError("the public half of the key doesn't verify the signature that was made: the key is damaged, or the signer failed")
        shown = b"" if is_detached else message[len(header) + 1 :]
        return str(b"%s.%s.%s" % (header, shown, base64url_encode(signature)), "utf-8")

    def decode_complete(
        self,
        jwt: Token,
        key: Key = "",
        algorithms: Listed | None = None,
        options: Options | None = None,
        detached_payload: bytes | None = None,
        **kwargs: Never,
    ) -> dict[str, Any]:
        """Returns the bytes that `decode` returns as `payload`, with the token's `header` and the bytes of its `signature`."""
        if kwargs:
            check_keywords("decode_complete", kwargs, _DECODE, self._is_lenient)
        verifies = {**self.options, **options_of(options, drops=True)}["verify_signature"]
        if not isinstance(verifies, bool):
            raise wrong_type("verify_signature", "True or False", verifies)
        names = listed(algorithms, self._is_lenient)
        if verifies and not names and not isinstance(key, PyJWK):
            raise DecodeError('It is required that you pass in a value for the "algorithms" argument when calling decode().')
        token = token_of("jwt", jwt)
        header = header_of(token)
        head, text, signature = token.rsplit(b".", 2)
        whole = {"payload": octets_of(text, "payload"), "header": header, "signature": octets_of(signature, "crypto")}
        is_encoded = header.get("b64", True)
        if not isinstance(is_encoded, bool):
            raise DecodeError("Invalid header string: b64 must be true or false")
        if not is_encoded:
            if detached_payload is None:
                why = "argument to decode a message having the b64 header set to false."
                raise DecodeError(f'It is required that you pass in a value for the "detached_payload" {why}')
            whole["payload"] = text = detached_payload
        if verifies:
            algorithm = self._algorithm_of(header, names or (key.algorithm_name if isinstance(key, PyJWK) else "",))
            _check_signature(token, b"%s.%s" % (head, text), key, algorithm)
        return whole

    def decode(
        self,
        jwt: Token,
        key: Key = "",
        algorithms: Listed | None = None,
        options: Options | None = None,
        detached_payload: bytes | None = None,
        **kwargs: Never,
    ) -> Any:
        """Returns the bytes of a token's payload, once the library has verified the signature with a key, by one of these algorithms.

        A payload that is detached (RFC 7797) has to be given. A refusal raises an exception below InvalidTokenError.
        """
        if kwargs:
            check_keywords("decode", kwargs, _DECODE, self._is_lenient)
        return self.decode_complete(jwt, key, algorithms, options, detached_payload)["payload"]

    def get_unverified_header(self, jwt: Token) -> dict[str, Any]:
        """Returns the header of a token. Nothing is verified."""
        return get_unverified_header(jwt)

    def _algorithm_of(self, header: dict[str, Any], algorithms: tuple[str, ...]) -> str:
        """Returns the algorithm of a header. Raises an exception if it is not one of these, or if the crit is not understood."""
        named = header.get("alg")
        if "alg" not in header:
            raise InvalidAlgorithmError("Algorithm not specified")
        if not named or named not in algorithms:
            raise InvalidAlgorithmError(_refusals.UNLISTED_ALG)
        if named not in self._algorithms or named not in ALGORITHMS:
            raise InvalidAlgorithmError("Algorithm not supported")
        # no call of the library verifies a token without claims, and b64 alone is understood here
        crit = header.get("crit")
        if crit is not None and (crit != ["b64"] or "b64" not in header):
            raise DecodeError(_refusals.BAD_CRIT)
        return str(named)


def _check_signature(token: bytes, message: bytes, key: Key, algorithm: str) -> None:
    """Raises an exception if the library does not read the token's header, or does not accept its signature for this message."""
    part, keys = signed_part(token), keys_of(key)
    try:
        is_accepted = is_signed(message, part.signature, keys, algorithm)
    except InvalidKeyError as error:
        # the sender of the token may have chosen the key by its kid (PyJWKClient)
        if isinstance(key, PyJWK):
            raise InvalidAlgorithmError(str(error)) from None
        raise
    if not is_accepted:
        raise InvalidSignatureError("Signature verification failed")


_DECODE = arguments_of(PyJWS.decode)

_global = PyJWS()
encode = _global.encode
decode = _global.decode
decode_complete = _global.decode_complete
get_algorithm_by_name = _global.get_algorithm_by_name


def register_algorithm(alg_id: str, alg_obj: Algorithm) -> None:
    """Raises NotImplementedError: the library alone verifies."""
    _global.register_algorithm(alg_id, alg_obj)


def unregister_algorithm(alg_id: str) -> None:
    """Raises NotImplementedError: `decode` is given the algorithms that it accepts."""
    raise NotImplementedError(f"{alg_id!r} stays: list the algorithms that are accepted as algorithms= of decode, or make a PyJWS")


__all__ = [
    "PyJWS",
    "decode",
    "decode_complete",
    "encode",
    "get_algorithm_by_name",
    "get_unverified_header",
    "register_algorithm",
    "unregister_algorithm",
]
