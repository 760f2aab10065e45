"""PyJWKClient: a JSON Web Key Set that is fetched, and fetched again as its keys rotate."""
import contextvars
import json
import math
import os
import re
import threading
import time
import weakref
from collections.abc import Mapping
from typing import TYPE_CHECKING, Any
from urllib.parse import urlsplit

from ._keys import PyJWK, PyJWKSet
from ._library import no_fork
from ._refusals import unknown
from ._rules import exact_str, names_nearest, wrong_type
from ._unverified import get_unverified_header
from .exceptions import PyJWKClientConnectionError, PyJWKClientError, PyJWKSetError, UnusableSetError

if TYPE_CHECKING:
    from concurrent.futures import Future

_clock = time.monotonic
# of a timeout, in seconds
_LONGEST = 86400
# of the keys of a set that is fetched
_MOST_KEYS = 1000
_NO_SIGNING_KEYS = "The JWKS endpoint did not contain any signing keys"
# a name and a value of a header (RFC 9110 sections 5.1 and 5.5)
_NAME = re.compile(r"[!#$%&'*+\-.^_`|~0-9A-Za-z]+")
_VALUE = re.compile(r"[\t\x20-\x7e\x80-\xff]*")


def _checked_uri(uri: Any) -> str:
    if not isinstance(uri, str):
        raise wrong_type("uri", "a string", uri)
    uri = exact_str(uri)
    if not all("\x21" <= it <= "\x7e" for it in uri):
        raise ValueError(f"uri has a blank or a character that has to be escaped: {uri!r}")
    try:
        parts = urlsplit(uri)
        is_whole = parts.scheme in ("http", "https") and bool(parts.hostname) and parts.port != 0
    except ValueError as error:
        raise ValueError(f"uri can't be read: {error}") from None
    if not is_whole:
        raise ValueError(f"uri must be of the scheme http or https, with a host, not {uri!r}")
    if "@" in parts.netloc:
        raise ValueError("uri has a user; headers has a place for its password")
    return uri


def _checked_headers(headers: Any) -> dict[str, str]:
    if headers is None:
        return {}
    if not isinstance(headers, Mapping):
        raise wrong_type("headers", "a mapping", headers)
    for name, value in headers.items():
        if not isinstance(name, str) or not isinstance(value, str):
            raise wrong_type("each name and value of headers", "a string", value if isinstance(name, str) else name)
        if not _NAME.fullmatch(name) or not _VALUE.fullmatch(value):
            raise ValueError(f"headers has a name or a value that can't be sent: {name!r}")
    return dict(headers)


def _number(name: str, value: Any) -> float:
    if isinstance(value, bool) or not isinstance(value, (int, float)):
        raise wrong_type(name, "a number of seconds", value)
    return value


def _checked_timeout(timeout: float) -> float:
    # for a float that is not a number both comparisons are false
    if not 0 < _number("timeout", timeout) <= _LONGEST:
        raise ValueError(f"timeout must be more than 0 seconds, and at most a day, not {timeout}")
    return timeout


def _checked_context(context: Any) -> Any:
    if context is not None:
        import ssl

        if not isinstance(context, ssl.SSLContext):
            raise wrong_type("ssl_context", "an SSLContext or None", context)
    return context


def _set_of(data: Any) -> PyJWKSet:
    """Returns the set that a server's JSON is."""
    if not isinstance(data, dict):
        raise PyJWKClientError("The JWKS endpoint did not return a JSON object")
    keys = data.get("keys")
    if isinstance(keys, list) and len(keys) > _MOST_KEYS:
        raise PyJWKClientError(f"The JWKS endpoint returned more than {_MOST_KEYS} keys")
    try:
        return PyJWKSet.from_dict(data)
    except PyJWKSetError as error:
        raise UnusableSetError(f"{_NO_SIGNING_KEYS}: {error}") from None


class _Sets:
    """The last set that was fetched, which is fresh for some seconds."""

    def __init__(self, lifespan: float) -> None:
        self._lifespan = lifespan
        self._until = -math.inf
        self.last: PyJWKSet | None = None

    def put(self, jwk_set: PyJWKSet | dict[str, Any] | None) -> None:
        """Keeps a set, or its JSON, which a `fetch_data` of a subclass may put here as PyJWT's does. After None no set is fresh."""
        if jwk_set is None:
            self._until = -math.inf
            return
        found = jwk_set if isinstance(jwk_set, PyJWKSet) else _set_of(jwk_set)
        # a set with which no token can be verified replaces none of the others
        if found._keys.is_usable or self.last is None or not self.last._keys.is_usable:
            self.last, self._until = found, _clock() + self._lifespan

    def get(self) -> PyJWKSet | None:
        """Returns the set if it is fresh."""
        return self.last if _clock() < self._until else None

    def is_overdue(self) -> bool:
        """Returns whether the set has not been fresh for as long as it was."""
        return self._until == -math.inf or _clock() >= self._until + self._lifespan


class _Keys:
    """The keys that were used last, each for some seconds."""

    def __init__(self, lifespan: float, largest: int) -> None:
        self._lifespan, self._largest = lifespan, largest
        self._lock = threading.Lock()
        self._found: dict[str, tuple[float, PyJWK]] = {}

    def reset_lock(self) -> None:
        self._lock = threading.Lock()

    def put(self, kid: str, key: PyJWK) -> None:
        with self._lock:
            self._found.pop(kid, None)
            self._found[kid] = _clock() + self._lifespan, key
            while len(self._found) > self._largest:
                del self._found[next(iter(self._found))]

    def get(self, kid: str) -> PyJWK | None:
        with self._lock:
            until, key = self._found.pop(kid, (-math.inf, None))
            if key is None or _clock() >= until:
                return None
            self._found[kid] = until, key
            return key

    def renew(self, later: PyJWKSet) -> None:
        """Drops the keys that a later set does not have as they are."""
        with self._lock:
            self._found = {kid: kept for kid, kept in self._found.items() if any(kept[1]._jwk_data == it._jwk_data for it in later.keys)}


class PyJWKClient:
    """Fetches the JSON Web Key Set of a URI, for any number of threads. `decode` verifies tokens by its keys.

    A set is kept for `lifespan` seconds, and serves until a later one is fetched, which a thread does at the next call. A `kid` that it
    does not have causes a further fetch, at most every 10 seconds, for which the call waits. An answer may have 1 MiB and 1000 keys, and
    comes within `timeout` seconds. If `cache_jwk_set` is False, each call fetches a set, but for such a `kid`.
    """

    # the least time from a fetch for an unknown kid to the next one, and from a fetch that failed to the next one, in seconds
    _pause = 10.0

    @names_nearest
    def __init__(
        self,
        uri: str,
        cache_keys: bool = False,
        max_cached_keys: int = 16,
        cache_jwk_set: bool = True,
        lifespan: float = 300,
        headers: Mapping[str, str] | None = None,
        timeout: float = 30,
        ssl_context: Any | None = None,
    ) -> None:
        for name, value in (("cache_keys", cache_keys), ("cache_jwk_set", cache_jwk_set)):
            if not isinstance(value, bool):
                raise wrong_type(name, "True or False", value)
        if isinstance(max_cached_keys, bool) or not isinstance(max_cached_keys, int):
            raise wrong_type("max_cached_keys", "an integer", max_cached_keys)
        if max_cached_keys < 0:
            raise ValueError(f"max_cached_keys must be from 0 on, not {max_cached_keys}")
        if not _number("lifespan", lifespan) > 0 and (cache_jwk_set or cache_keys):
            raise PyJWKClientError(f'Lifespan must be greater than 0, the input is "{lifespan}" (lifespan)')
        self.uri = _checked_uri(uri)
        self.headers = _checked_headers(headers)
        self.timeout = _checked_timeout(timeout)
        self.ssl_context = _checked_context(ssl_context)
        self.jwk_set_cache = _Sets(lifespan) if cache_jwk_set else None
        # a set that is kept has its keys
        self._keys = _Keys(lifespan, max_cached_keys) if cache_keys and not cache_jwk_set else None
        self._lock = threading.Lock()
        self._under_way: "Future[PyJWKSet] | None" = None
        # why the last fetch gave no usable set, or None
        self._failure: str | None = None
        # before these times no set is fetched for an unknown kid, or instead of one that is not fresh
        self._refetch_from = self._renew_from = -math.inf
        # whether a thread refreshes for an unknown kid
        self._of_thread = threading.local()
        # those that were fetched last, if no set is kept
        self._last_keys: list[PyJWK] = []
        _clients.add(self)

    def fetch_data(self) -> Any:
        """Fetches the set, and returns it as the server's JSON. Raises PyJWKClientConnectionError, or PyJWKClientError."""
        # what it imports takes long to load, and most programs fetch nothing
        with no_fork:
            from . import _download

        try:
            return json.loads(_download.body(self.uri, self.headers, self.timeout, self.ssl_context))
        except (ValueError, RecursionError) as error:
            raise PyJWKClientError(f"The JWKS endpoint did not return JSON: {error}") from error

    def get_jwk_set(self, refresh: bool = False) -> PyJWKSet:
        """Returns the set that is kept, or fetches one if there is none that is fresh, or if `refresh` asks for it."""
        kept = self.jwk_set_cache
        if kept is None or refresh:
            return self._fetched(getattr(self._of_thread, "seeks", False))
        found = kept.get()
        if found is not None:
            return found
        return self._fetched() if kept.last is None else self._renewed(kept, kept.last)

    def get_signing_keys(self, refresh: bool = False) -> list[PyJWK]:
        """Returns the keys of the set that have a `kid`. Raises PyJWKClientError if none has."""
        found = self.get_jwk_set(refresh)._signing
        if not found:
            raise PyJWKClientError(_NO_SIGNING_KEYS)
        return list(found)

    def get_signing_key(self, kid: str) -> PyJWK:
        """Returns the key of this id. Raises UnknownKeyError if the set has none."""
        if kid is not None and not isinstance(kid, str):
            raise wrong_type("kid", "a string", kid)
        if not kid:
            # no signing key has such an id, in no set
            raise unknown(kid)
        found = None if self._keys is None else self._keys.get(kid)
        if found is None:
            found = self._found(exact_str(kid))
            if self._keys is not None:
                self._keys.put(kid, found)
        return found

    def get_signing_key_from_jwt(self, token: Any) -> PyJWK:
        """Returns the key that the header of a token names. Nothing of the token is verified: `decode` does it."""
        return self.get_signing_key(get_unverified_header(token).get("kid"))  # type: ignore[arg-type]

    @staticmethod
    def match_kid(signing_keys: list[PyJWK], kid: str) -> PyJWK | None:
        """Returns the first of these keys with this id."""
        return next((it for it in signing_keys if it.key_id == kid), None)

    def _found(self, kid: str) -> PyJWK:
        # by calls of the interface, in PyJWT's order: a subclass may choose among the keys
        if self.jwk_set_cache is None and _clock() < self._refetch_from and self.match_kid(self._last_keys, kid) is None:
            raise self._not_found(kid)
        try:
            self._last_keys = self.get_signing_keys()
            found = self.match_kid(self._last_keys, kid)
        except PyJWKClientError:
            if self.jwk_set_cache is None or self.jwk_set_cache.last is None:
                raise
            # the set that is kept has no key that signs
            found = None
        if found is None and (self.jwk_set_cache is not None or _clock() >= self._refetch_from):
            found = self._found_later(kid)
        if found is None:
            raise self._not_found(kid)
        return found

    def _not_found(self, kid: str) -> PyJWKClientError:
        """Returns the error for a kid that is not in the last set. If the last fetch failed, a later set may have the kid."""
        if self._failure is not None:
            return PyJWKClientConnectionError(f"the key set can't be fetched, and the last one has no such kid: {self._failure}")
        return unknown(kid)

    def _found_later(self, kid: str) -> PyJWK | None:
        """Returns the key of a later set, if there is one, or if it is time to fetch one."""
        self._of_thread.seeks = True
        try:
            self._last_keys = self.get_signing_keys(refresh=True)
            return self.match_kid(self._last_keys, kid)
        finally:
            self._of_thread.seeks = False

    def _renewed(self, kept: _Sets, last: PyJWKSet) -> PyJWKSet:
        """Returns the last set, while a thread fetches the next one. One that is overdue is used only once a fetch has failed."""
        with no_fork:
            from concurrent.futures import Future, wait

        mine: "Future[PyJWKSet] | None" = None
        with self._lock:
            if _clock() < self._renew_from:
                return last
            if self._under_way is None:
                mine = self._under_way = Future()
            under_way = self._under_way
            waits = kept.is_overdue() and self._failure is None
        if mine is not None:
            self._begin(mine)
        if waits:
            wait([under_way], self.timeout)
        return kept.last or last

    def _begin(self, mine: "Future[PyJWKSet]") -> None:
        # a subclass may look for what belongs to the request
        run = contextvars.copy_context().run
        try:
            threading.Thread(target=run, args=(self._renew, mine), name="jwtproved", daemon=True).start()
        except RuntimeError as error:
            # no further thread can be started
            self._end(mine, None, error)
            mine.set_exception(error)
            self._warn(error)

    def _renew(self, mine: "Future[PyJWKSet]") -> None:
        try:
            self._fetched_by(mine)
        except Exception as error:
            # of any kind, if a subclass fetches
            self._warn(error)

    def _warn(self, error: Exception) -> None:
        with no_fork:
            import logging

        logging.getLogger("jwtproved").warning("the last set of keys of %s is used: %s", self.uri, error)

    def _fetched(self, seeks: bool = False) -> PyJWKSet:
        """Returns a set that is fetched. Threads that ask for it at the same time get the same. One that `seeks` an unknown kid gets the
        last set during the pause."""
        with no_fork:
            from concurrent.futures import Future

        with self._lock:
            under_way = self._under_way
            if under_way is None:
                last = None if self.jwk_set_cache is None else self.jwk_set_cache.last
                if seeks and last is not None and _clock() < self._refetch_from:
                    return last
                mine = self._under_way = Future()
                if seeks:
                    self._refetch_from = _clock() + self._pause
        try:
            return self._fetched_by(mine) if under_way is None else self._joined(under_way)
        finally:
            # the pause is after the end: a server that hangs is not asked again at once
            if seeks:
                self._refetch_from = _clock() + self._pause

    def _fetched_by(self, mine: "Future[PyJWKSet]") -> PyJWKSet:
        try:
            found = _set_of(self.fetch_data())
        except BaseException as error:
            self._end(mine, None, error)
            mine.set_exception(error)
            raise
        self._end(mine, found)
        mine.set_result(found)
        return found

    def _joined(self, under_way: "Future[PyJWKSet]") -> PyJWKSet:
        try:
            return under_way.result(self.timeout)
        except TimeoutError:
            late = PyJWKClientConnectionError('Fail to fetch data from the url, err: "timed out"')
            self._end(under_way, None, late)
            raise late from None

    def _end(self, under_way: "Future[PyJWKSet]", found: PyJWKSet | None, error: BaseException | None = None) -> None:
        with self._lock:
            if self._under_way is under_way:
                self._under_way = None
            self._failure = None
            if found is None or not found._keys.is_usable:
                self._failure = _NO_SIGNING_KEYS if error is None else f"{error}" or type(error).__name__
                self._renew_from = _clock() + self._pause
            if found is not None and self.jwk_set_cache is not None:
                self.jwk_set_cache.put(found)
            if found is not None and found._keys.is_usable and self._keys is not None:
                self._keys.renew(found)

    def _after_fork(self) -> None:
        """Forgets the locks and the fetch of threads that a child does not have."""
        self._lock, self._under_way = threading.Lock(), None
        if self._keys is not None:
            self._keys.reset_lock()


_clients: "weakref.WeakSet[PyJWKClient]" = weakref.WeakSet()


def _after_fork() -> None:
    for it in list(_clients):
        it._after_fork()


os.register_at_fork(after_in_child=_after_fork)
