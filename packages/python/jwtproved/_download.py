"""Fetches a text over HTTP, of at most a MiB and within a time limit."""
import http.client
import socket
import threading
import urllib.error
import urllib.request
from concurrent.futures import Future
from typing import Any
from urllib.parse import urlsplit

from .exceptions import PyJWKClientConnectionError

# in bytes
LARGEST = 2**20


class _Exchange:
    """The connections of a request, which another thread can cut."""

    def __init__(self) -> None:
        self._lock = threading.Lock()
        self._sockets: list[socket.socket] = []
        self._is_over = False

    def keep(self, opened: socket.socket) -> None:
        with self._lock:
            self._sockets.append(opened)
            is_over = self._is_over
        if is_over:
            _shut(opened)

    def cut(self) -> None:
        with self._lock:
            self._is_over = True
        for it in self._sockets:
            _shut(it)


def _shut(opened: socket.socket) -> None:
    try:
        # a read in another thread ends; SSLSocket.shutdown would change what that thread uses
        socket.socket.shutdown(opened, socket.SHUT_RDWR)
    except OSError:
        pass


def _kept(kind: Any, exchange: _Exchange) -> Any:
    """Returns a kind of connection whose sockets an exchange keeps."""

    class Connection(kind):  # type: ignore[misc]
        def connect(self) -> None:
            super().connect()
            exchange.keep(self.sock)

    return Connection


class _Handler(urllib.request.AbstractHTTPHandler):
    """Makes the connections."""

    def __init__(self, exchange: _Exchange, context: Any) -> None:
        super().__init__()
        self._exchange, self._ssl = exchange, context

    def http_open(self, request: Any) -> Any:
        return self.do_open(_kept(http.client.HTTPConnection, self._exchange), request)

    def https_open(self, request: Any) -> Any:
        return self.do_open(_kept(http.client.HTTPSConnection, self._exchange), request, context=self._ssl)

    http_request = https_request = urllib.request.AbstractHTTPHandler.do_request_


class _Redirects(urllib.request.HTTPRedirectHandler):
    """Follows redirects to the same scheme, or from http to https. Another host is not sent the caller's headers."""

    def redirect_request(self, req: Any, fp: Any, code: int, msg: str, headers: Any, newurl: str) -> Any:
        from_, to = urlsplit(req.full_url), urlsplit(newurl)
        if to.scheme not in ("https", from_.scheme):
            raise urllib.error.URLError(f"a redirect from {from_.scheme} to {to.scheme}")
        made = super().redirect_request(req, fp, code, msg, headers, newurl)
        if made is not None and (to.scheme, to.netloc) != (from_.scheme, from_.netloc):
            made.headers.clear()
        return made


def _replacement() -> Any:
    """Returns what a program has put in place of `urllib.request.urlopen`, such as a test's mock. Returns None for Python's own, also wrapped."""
    found: Any = urllib.request.urlopen
    while hasattr(found, "__wrapped__"):
        found = found.__wrapped__
    return None if getattr(found, "__globals__", None) is vars(urllib.request) else urllib.request.urlopen


def _opened(request: urllib.request.Request, timeout: float, context: Any, exchange: _Exchange) -> Any:
    """Returns the response. No scheme other than http and https has a handler.

    Python's `urlopen` is not called, since it follows redirects to other schemes, and sends the caller's headers to other hosts.
    """
    replacement = _replacement()
    if replacement is not None:
        return replacement(request, timeout=timeout, context=context)
    opener = urllib.request.OpenerDirector()
    for it in (
        urllib.request.ProxyHandler(),
        urllib.request.UnknownHandler(),
        _Handler(exchange, context),
        _Redirects(),
        urllib.request.HTTPDefaultErrorHandler(),
        urllib.request.HTTPErrorProcessor(),
    ):
        opener.add_handler(it)
    return opener.open(request, timeout=timeout)


def _whole(response: Any) -> bytes:
    if isinstance(response, http.client.HTTPResponse) and response.status != 200:
        raise http.client.HTTPException(f"the status is {response.status}, and not 200")
    text: bytes = response.read(LARGEST + 1)
    if len(text) > LARGEST:
        raise http.client.HTTPException(f"the answer has more than {LARGEST} bytes")
    if isinstance(response, http.client.HTTPResponse) and response.length:
        raise http.client.IncompleteRead(text, response.length)
    return text


def body(uri: str, headers: dict[str, str], timeout: float, context: Any) -> bytes:
    """Returns the body of the answer, or raises PyJWKClientConnectionError, at the latest after the timeout, in seconds."""
    exchange = _Exchange()
    found: "Future[bytes]" = Future()

    def fetch() -> None:
        try:
            request = urllib.request.Request(url=uri, headers=dict(headers))
            with _opened(request, timeout, context, exchange) as response:
                text = _whole(response)
        except BaseException as error:
            found.set_exception(error)
        else:
            found.set_result(text)

    try:
        # the timeout of a socket is that of each read, and there is none for the name of a host
        threading.Thread(target=fetch, name="jwtproved", daemon=True).start()
        return found.result(timeout)
    except TimeoutError as error:
        raise _failure("timed out") from error
    except (OSError, http.client.HTTPException, ValueError, RuntimeError) as error:
        raise _failure(error) from error
    finally:
        exchange.cut()


def _failure(why: object) -> PyJWKClientConnectionError:
    return PyJWKClientConnectionError(f'Fail to fetch data from the url, err: "{why}"')
