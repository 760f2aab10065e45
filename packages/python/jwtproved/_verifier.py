"""Verifiers: keys and rules that are read once, for many tokens."""
import contextlib
import ctypes
import functools
import json
import time
from collections.abc import Callable, Iterable
from typing import Any

from ._client import PyJWKClient
from ._handles import Handles, Keys
from ._keys import Key, keys_of
from ._library import Refusal, library, slices
from ._refusals import exception_of, exception_of_making
from ._rules import UNCHECKED, Moment, Names, Rules, exact_number, names_nearest, options_of, rules_of, wrong_type
from ._status import Part, Status
from ._unverified import Token, complete, part_of, token_of
from .exceptions import ClockError, DecodeError, InvalidTokenError, PyJWTError, UnknownKeyError
from .types import Listed, Options

# the most bytes of prepared keys: the library's default, and a bound for sets that are fetched or given to `decode`, which may be large
PREPARED, PREPARED_OF_SET = 0, 2**20

_clock = time.time
_scan: Callable[[str, int], tuple[Any, int]] = json.JSONDecoder().scan_once  # type: ignore[attr-defined]


def read_json(text: str) -> Any:
    """Returns the value of JSON that the library has read."""
    return _scan(text.lstrip(), 0)[0]


def moment_of(now: float | None) -> int:
    """Returns a time of the caller, or else that of the system clock, in whole seconds since 1970-01-01 00:00:00 UTC."""
    if now is None:
        told = _clock()
        # NaN fails both comparisons; those with a float take less time
        if 0.0 <= told < 2.0**64:
            return int(told)
        raise ClockError(f"the system clock must be from 0 to 18446744073709551615 seconds since 1970-01-01, not {told}")
    if isinstance(now, bool) or not isinstance(now, (int, float)):
        raise wrong_type("now", "an int or a float", now)
    now = exact_number(now)
    if not 0 <= now < 2**64:
        raise ValueError(f"now must be from 0 to 18446744073709551615 seconds since 1970-01-01, not {now}")
    return int(now)


class Checker:
    """Verifies tokens with keys under rules."""

    def __init__(self, keys: Keys, rules: Rules, longest: int = 0, prepared: int = PREPARED) -> None:
        self.keys, self._rules = keys, rules
        try:
            self.handles = keys.verifier(rules.text(rules.algorithms), longest, prepared)
        except Refusal as refusal:
            raise exception_of_making(refusal, keys, rules) from None

    def said(self, token: bytes, now: int) -> str:
        """Returns the claims of a token as JSON, or raises an exception below InvalidTokenError."""
        try:
            return self.handles.decode(token, now)
        except Refusal as refusal:
            raise exception_of(refusal, token, self._rules) from None


# each keeps its key in memory, a secret too
@functools.lru_cache(maxsize=64)
def checker_of(keys: Keys, rules: Rules) -> Checker:
    """Returns a checker, which is made once for the keys and rules that were used last."""
    return Checker(keys, rules, prepared=PREPARED_OF_SET if keys.is_set else PREPARED)


class _Verifies:
    """What verifies tokens."""

    def _said(self, token: bytes, now: int) -> str:
        """Returns the claims of a token as JSON, or raises an exception below InvalidTokenError."""
        raise NotImplementedError

    def decode(self, token: Token, now: float | None = None) -> dict[str, Any]:
        """Returns the claims of a token, verified at the time `now`, in seconds since 1970-01-01 00:00:00 UTC, or else at the clock's.

        A refusal raises an exception below InvalidTokenError.
        """
        claims: dict[str, Any] = read_json(self._said(token_of("token", token), moment_of(now)))
        return claims

    def decode_complete(self, token: Token, now: float | None = None) -> dict[str, Any]:
        """Returns the claims that `decode` returns as `payload`, with the token's `header` and the bytes of its `signature`."""
        return complete(token_of("token", token), self.decode(token, now))

    def raw_claims(self, token: Token, now: float | None = None) -> str:
        """Returns the claims that `decode` returns as JSON, with the order and the digits of the signed payload.

        If an object in the claims has a name twice, this is other JSON of what was verified, in which each name is there once.
        """
        return self._said(token_of("token", token), moment_of(now))


class Verifier(_Verifies):
    """Verifies tokens with one key, or with the keys of a set, under conditions that are read once. Any number of threads may use it.

    It takes the arguments of `decode`. The key is a secret, a public key in PEM, a JSON Web Key, a set of them or a PyJWKClient, and must
    fit one of `algorithms`, which may be of several families, such as RS256 and EdDSA. A PyJWKClient fetches its set for the first token,
    and a later set for a token that names an unknown key. `understood_crit` lists the names that the header's `crit` may have; the caller
    must process these members.
    A token that expires in less than `reject_tokens_expiring_in_less_than` seconds is refused; the default of 1 refuses one at its `exp`.
    A token may have at most `max_token_length` bytes, 1 MiB if it is None.
    """

    @names_nearest
    def __init__(
        self,
        key: Key | PyJWKClient,
        algorithms: Listed,
        options: Options | None = None,
        audience: Names = None,
        issuer: Names = None,
        subject: str | None = None,
        leeway: Moment = 0,
        *,
        understood_crit: Names = None,
        reject_tokens_expiring_in_less_than: Moment | None = None,
        max_token_length: int | None = None,
    ) -> None:
        asked = options_of(options)
        if asked.get("verify_signature") is False:
            raise ValueError("options has verify_signature, which a Verifier always does")
        rejected = reject_tokens_expiring_in_less_than
        self._rules = rules_of(algorithms, asked, audience, issuer, subject, leeway, understood_crit, rejected)
        if not self._rules.algorithms:
            raise ValueError("algorithms is empty")
        self._longest = _longest(max_token_length)
        self._source: Keys | PyJWKClient = key if isinstance(key, PyJWKClient) else keys_of(key)
        self._made: Checker | None = None
        if isinstance(self._source, Keys):
            self._checker()
        elif self._source.jwk_set_cache is None:
            raise ValueError("key is a PyJWKClient that keeps no set: leave out its cache_jwk_set=False")

    def _checker(self) -> Checker:
        """Returns the checker of the present keys."""
        made, prepared = self._made, PREPARED
        keys = self._source
        if not isinstance(keys, Keys):
            keys, prepared = keys.get_jwk_set()._keys, PREPARED_OF_SET
        if made is None or made.keys is not keys:
            made = self._made = Checker(keys, self._rules, self._longest, prepared)
        return made

    def _said(self, token: bytes, now: int) -> str:
        try:
            return self._checker().said(token, now)
        except UnknownKeyError:
            if isinstance(self._source, Keys):
                raise
        # fetches a later set, or raises the reason
        with contextlib.suppress(UnknownKeyError):
            self._source.get_signing_key_from_jwt(token)
        return self._checker().said(token, now)

    def _ready(self) -> Checker | None:
        """Returns the checker of the present keys, or None while a set must be fetched first."""
        kept = None if isinstance(self._source, Keys) else self._source.jwk_set_cache
        if kept is not None and (kept.last is None or kept.is_overdue()):
            return None
        try:
            return self._checker()
        except PyJWTError:
            # no key of a later set fits
            return None

    def _asks_for_issuer(self, claims: bytes) -> bool:
        """Returns whether these unverified claims name an issuer of this verifier."""
        rules = Rules((), (*{**UNCHECKED, "verify_iss": True}.items(),), None, self._rules.issuer, None, 0, None, None)
        return bool(library.jwt_check_claims(*slices(claims, rules.text()), 0, ctypes.c_uint32()) == Status.OK)


def _longest(length: int | None) -> int:
    """Returns the greatest length of a token as the library takes it, which is 0 for its default."""
    if length is None:
        return 0
    if isinstance(length, bool) or not isinstance(length, int):
        raise wrong_type("max_token_length", "an int or None", length)
    if not 0 < length < 2**63:
        raise ValueError(f"max_token_length must be from 1 to 9223372036854775807, not {length}")
    return length


class ByIssuer(_Verifies):
    """Verifies tokens of several issuers, and is used like a Verifier: `ByIssuer(first, second)`, with a Verifier for each issuer.

    A key of one issuer verifies no token of another one (RFC 8725 section 3.8), since each Verifier has to ask for its `issuer`. If keys
    are fetched, an issuer whose server is down does not keep the tokens of others.
    """

    def __init__(self, *verifiers: Verifier) -> None:
        if not verifiers:
            raise ValueError("ByIssuer has no Verifier: give it one for each issuer")
        for number, it in enumerate(verifiers, 1):
            if not isinstance(it, Verifier):
                raise wrong_type(f"argument {number} of ByIssuer", "a Verifier", it)
            if it._rules.issuer is None or not it._rules.option("verify_iss"):
                raise ValueError(f"Verifier {number} of ByIssuer accepts tokens of any issuer: give it issuer=.., and no verify_iss of False")
        self._verifiers = verifiers
        # checkers, and the verifier that joins them
        self._joined: tuple[tuple[Checker, ...], Handles | None] = (), None

    def _either(self) -> tuple[tuple[Checker, ...], Handles | None]:
        """Returns the checkers whose keys are present, and the verifier that joins them. It is made again if a key set has changed."""
        ready = tuple(filter(None, [it._ready() for it in self._verifiers]))
        if ready != self._joined[0]:
            self._joined = ready, functools.reduce(Handles.either, [it.handles for it in ready]) if ready else None
        return self._joined

    def _said(self, token: bytes, now: int) -> str:
        ready, joined = self._either()
        if joined is None:
            return self._said_by(self._of_issuer(token) or self._verifiers[:1], token, now)
        try:
            return joined.decode(token, now)
        except Refusal as refusal:
            lacks_key = refusal.has_kid or len(ready) < len(self._verifiers)
            fetching = [it for it in self._of_issuer(token) if not isinstance(it._source, Keys)] if lacks_key else []
            if not fetching:
                raise exception_of(refusal, token, ready[refusal.verifier]._rules) from None
        # that of the issuer fetches its keys if it is the one that lacks the key
        return self._said_by(fetching, token, now)

    @staticmethod
    def _said_by(verifiers: Iterable[Verifier], token: bytes, now: int) -> str:
        """Returns what the first of these verifiers says that accepts a token, or raises the exception of the last one."""
        for it in verifiers:
            try:
                return it._said(token, now)
            except InvalidTokenError as error:
                last = error
        raise last

    def _of_issuer(self, token: bytes) -> list[Verifier]:
        """Returns the verifiers of the issuer that an unverified token names."""
        try:
            claims = part_of(token, Part.PAYLOAD)
        except DecodeError:
            return []
        return [it for it in self._verifiers if it._asks_for_issuer(claims)]
