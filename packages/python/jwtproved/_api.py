"""`encode`, `decode` and their like, by PyJWT's names."""
import ctypes
import json
import warnings
from collections.abc import Mapping
from typing import Any, Never

from ._encoding import members_of, payload_of, unsignable, written
from ._keys import Key, PyJWK, SigningKey, keys_known, keys_of
from ._library import ALGORITHMS, Refusal, check, library, number_of, slices
from ._refusals import exception_of
from ._rules import DEFAULTS, UNCHECKED, Moment, Names, Rules, arguments_of, check_keywords, exact_str, names_nearest, options_of, rules_of
from ._signing import signer_of
from ._status import Part
from ._unverified import Token, complete, part_of, token_of
from ._verifier import Checker, checker_of, moment_of, read_json
from .exceptions import DecodeError, InvalidAlgorithmError, InvalidKeyError
from .types import Listed, Options

# The most checkers that an object finds without reading the arguments again: PyJWT's interface has no object that is made once.
_CACHE_SIZE = 64
_LISTS = frozenset((list, tuple, set, frozenset))


def _exact(value: Any) -> Any:
    """Returns an argument to compare it: a string as it is, and strings and options with their type. Raises TypeError for any other type, and
    for a subclass, whose instances may be equal to others."""
    kind = type(value)
    if kind is str or kind is bool:
        return value
    if kind not in _LISTS and kind is not dict:
        raise TypeError
    for it in value:
        if type(it) is not str:
            raise TypeError
    return (kind, *value) if kind is not dict else (kind, *value, *map(_exact, value.values()))


def _call(
    key: Any, algorithms: Any, options: Any, audience: Any, issuer: Any, subject: Any, leeway: Any, understood_crit: Any
) -> tuple[Any, ...] | None:
    """Returns what the checker for these arguments is kept under, or None if they are to be read again.

    Two calls have the same only if all arguments are of the same types and equal.
    """
    kind = type(key)
    known = key if kind is str or kind is bytes else keys_known(key)
    if known is None or type(leeway) is not int:
        return None
    try:
        return (
            kind,
            known,
            leeway,
            _exact(algorithms),
            options if options is None else _exact(options),
            audience if audience is None else _exact(audience),
            issuer if issuer is None else _exact(issuer),
            subject if subject is None else _exact(subject),
            understood_crit if understood_crit is None else _exact(understood_crit),
        )
    except TypeError:
        return None


def _checker(key: Key, rules: Rules) -> Checker:
    if not rules.algorithms:
        raise DecodeError('It is required that you pass in a value for the "algorithms" argument when calling decode().')
    try:
        return checker_of(keys_of(key), rules)
    except InvalidKeyError as error:
        # the sender of the token may have chosen the key by its kid (PyJWKClient)
        if isinstance(key, PyJWK):
            raise InvalidAlgorithmError(str(error)) from None
        raise


def _check_unused(verify: Any, detached_payload: Any, options: Any) -> None:
    """Warns of a `verify` that differs from the options. Raises NotImplementedError for a payload that is not in the token."""
    if detached_payload is not None:
        raise NotImplementedError("detached_payload is for PyJWS.decode: the claims of a token are in it")
    if verify is not None and verify != (options or {}).get("verify_signature", True):
        text = "The `verify` argument to `decode` does nothing in PyJWT 2.0 and newer: `verify_signature` in `options` does"
        warnings.warn(text, DeprecationWarning, stacklevel=3)


class PyJWT:
    """Issues and verifies tokens under options of its own, which each call may change."""

    # whether `algorithms` may be one name, a time to sign a float, and a keyword that is near no argument is only warned of: as_jwt has a subclass
    _is_lenient = False

    def __init__(self, options: Options | None = None) -> None:
        self._own = options_of(options, drops=True)
        self._kept: dict[tuple[Any, ...] | None, Checker] = {}
        self.options = {**DEFAULTS, **self._own, "require": list(self._own.get("require", ()))}

    def decode(
        self,
        jwt: Token,
        key: Key = "",
        algorithms: Listed | None = None,
        options: Options | None = None,
        verify: bool | None = None,
        detached_payload: bytes | None = None,
        audience: Names = None,
        subject: str | None = None,
        issuer: Names = None,
        leeway: Moment = 0,
        *,
        understood_crit: Names = None,
        **kwargs: Never,
    ) -> dict[str, Any]:
        """Returns the claims of a token, verified with a key at the time of the clock.

        A refusal raises an exception below InvalidTokenError. `verify` does nothing, with a warning.
        """
        if kwargs:
            check_keywords("decode", kwargs, _DECODE, self._is_lenient)
        if verify is not None or detached_payload is not None:
            _check_unused(verify, detached_payload, options)
        token = token_of("jwt", jwt)
        call = _call(key, algorithms, options, audience, issuer, subject, leeway, understood_crit)
        checker = self._kept.get(call)
        if checker is None:
            given = options_of(options, drops=True)
            conditions = audience, issuer, subject, leeway, understood_crit
            rules = rules_of(algorithms, {**self._own, **given}, *conditions, takes_one=self._is_lenient)
            if given.get("verify_signature") is False:
                return self._unverified(token, rules)
            checker = _checker(key, rules)
            # an option that is left out has a warning each time
            if call is not None and len(given) == len(options or ()):
                self._keep(call, checker)
        claims: dict[str, Any] = read_json(checker.said(token, moment_of(None)))
        return claims

    def _keep(self, call: tuple[Any, ...], checker: Checker) -> None:
        if len(self._kept) >= _CACHE_SIZE:
            self._kept.clear()
        self._kept[call] = checker

    def decode_complete(
        self,
        jwt: Token,
        key: Key = "",
        algorithms: Listed | None = None,
        options: Options | None = None,
        verify: bool | None = None,
        detached_payload: bytes | None = None,
        audience: Names = None,
        issuer: Names = None,
        subject: str | None = None,
        leeway: Moment = 0,
        *,
        understood_crit: Names = None,
        **kwargs: Never,
    ) -> dict[str, Any]:
        """Returns the claims that `decode` returns as `payload`, with the token's `header` and the bytes of its `signature`."""
        if kwargs:
            check_keywords("decode_complete", kwargs, _DECODE, self._is_lenient)
        token = token_of("jwt", jwt)
        conditions = audience, subject, issuer, leeway
        claims = self.decode(token, key, algorithms, options, verify, detached_payload, *conditions, understood_crit=understood_crit)
        return complete(token, claims)

    @staticmethod
    def _unverified(token: bytes, rules: Rules) -> dict[str, Any]:
        """Returns the claims of a token whose signature is not verified, after the checks that the options name."""
        rules = rules._replace(options=(*{**UNCHECKED, **dict(rules.options)}.items(),))
        now, claim = moment_of(None), ctypes.c_uint32()
        # PyJWT reads each part
        complete(token, None)
        payload = part_of(token, Part.PAYLOAD)
        try:
            check(library.jwt_check_claims(*slices(payload, rules.text()), now, claim))
        except Refusal as refusal:
            refusal.claim = claim.value
            raise exception_of(refusal, token, rules, True) from None
        claims: dict[str, Any] = json.loads(payload)
        return claims

    @names_nearest
    def encode(
        self,
        payload: Mapping[str, Any],
        key: SigningKey,
        algorithm: str | None = None,
        headers: Mapping[str, Any] | None = None,
        json_encoder: type[json.JSONEncoder] | None = None,
        sort_headers: bool = True,
    ) -> str:
        """Returns the token of the claims, signed with a secret, or with a private key by the package `cryptography`.

        Without an algorithm it is that of a PyJWK, or else HS256. The claims are in the order of the call, and the members of the header
        in the order of their names, unless `sort_headers` is False. `exp`, `nbf` and `iat` are ints of seconds since
        1970-01-01 00:00:00 UTC, or datetimes; one without a time zone is UTC.
        """
        claims = payload_of(payload, json_encoder, self._is_lenient)
        members = members_of(algorithm or (key.algorithm_name if isinstance(key, PyJWK) else "HS256"), headers)
        named = members["alg"]
        if not isinstance(named, str) or not number_of(named):
            raise NotImplementedError(f"algorithm is {named!r}, which is not one of {', '.join(ALGORITHMS)}")
        header = written("headers", members, json_encoder, sort_headers)
        try:
            return signer_of(key, exact_str(named)).signed(header, claims)
        except Refusal as refusal:
            raise unsignable(refusal) from None


_DECODE = arguments_of(PyJWT.decode)

_global = PyJWT()
decode = _global.decode
decode_complete = _global.decode_complete
encode = _global.encode
