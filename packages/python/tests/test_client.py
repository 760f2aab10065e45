"""Tests PyJWKClient of the installed package over a server on the loopback that rotates keys, and misbehaves. The last line counts."""
import base64
import concurrent.futures
import contextlib
import contextvars
import functools
import io
import json
import logging
import math
import os
import signal
import socket
import ssl
import sys
import tempfile
import threading
import time
import unittest.mock
import urllib.error
import urllib.request

import jwtproved as jwt
from jwtproved import _client, _download, _verifier

TOP = os.path.dirname(os.path.dirname(os.path.dirname(os.path.dirname(os.path.abspath(__file__)))))
sys.path.append(f"{TOP}/tests")
import tokens

HS = {"algorithms": ["HS256"]}
# for an answer of a server that hangs, in seconds
TIMEOUT = 0.4
passed = failed = 0
logging.getLogger("jwtproved").addHandler(logging.NullHandler())
logging.getLogger("jwtproved").propagate = False


def test(name, is_well):
    global passed, failed
    passed, failed = passed + bool(is_well), failed + (not is_well)
    if not is_well:
        print(f"FAILED: {name:.400}")


def outcome(call, *arguments, **options):
    try:
        return call(*arguments, **options)
    except Exception as error:
        return error


def raises(kind, call, *arguments, said="", **options):
    """Counts whether the call raises an exception of this kind, whose text has what is said."""
    got = outcome(call, *arguments, **options)
    test(f"{got!r}, not {kind.__name__} with {said!r}: {arguments} {options}", isinstance(got, kind) and said in str(got))


def gives(wanted, call, *arguments, **options):
    got = outcome(call, *arguments, **options)
    test(f"{got!r}, not {wanted!r}: {arguments} {options}", got == wanted)


def secret(kid):
    return f"the secret {kid} of at least 32 bytes".encode()


def key(kid, **members):
    return {"kty": "oct", "kid": kid, "k": tokens.part(secret(kid)).decode(), **members}


def set_of(*kids):
    return json.dumps({"keys": [key(it) for it in kids]}, separators=(",", ":")).encode()


CLAIMS = {"sub": "b@b.com"}


def token(kid, by=None, **header):
    """Returns a token that names a key, and is signed by it or by another one."""
    named = {} if kid is None else {"kid": kid}
    return tokens.signed({"alg": "HS256", **named, **header}, CLAIMS, secret(by or kid)).decode()


def head(length, status="200 OK", more=""):
    length = "" if length is None else f"Content-Length: {length}\r\n"
    return f"HTTP/1.1 {status}\r\nContent-Type: application/json\r\nConnection: close\r\n{length}{more}\r\n".encode()


class Server:
    """Answers each request on the loopback as its `answer` does, which is given the socket."""

    def __init__(self):
        self.heads, self.answer, self.is_open = [], None, threading.Event()
        self.listening = socket.create_server(("127.0.0.1", 0))
        self.uri = f"http://127.0.0.1:{self.listening.getsockname()[1]}/keys"
        threading.Thread(target=self.accept, daemon=True).start()

    def accept(self):
        with contextlib.suppress(OSError):
            while True:
                threading.Thread(target=self.serve, args=self.listening.accept()[:1], daemon=True).start()

    def serve(self, accepted):
        with accepted, contextlib.suppress(OSError):
            read = b""
            while b"\r\n\r\n" not in read:
                more = accepted.recv(4096)
                if not more:
                    return
                read += more
            self.heads.append(read.decode())
            self.answer(self, accepted)

    def close(self):
        self.is_open.set()
        self.listening.close()


def says(text, length=math.inf, **words):
    """Returns an answer with this text, and its length if no other is given."""

    def answer(server, to):
        to.sendall(head(len(text) if length == math.inf else length, **words) + text)

    return answer


def hangs_after(text):
    def answer(server, to):
        to.sendall(text)
        server.is_open.wait(20)

    return answer


def dribbles(text):
    """Returns an answer that comes byte by byte, so that no single read waits for long."""

    def answer(server, to):
        for it in range(4000):
            to.sendall(text[it : it + 1] or b" ")
            if server.is_open.wait(0.02):
                return

    return answer


def endless(server, to):
    to.sendall(head(None))
    while True:
        to.sendall(b" " * 65536)


def redirects(to_uri, status="302 Found"):
    return says(b"", status=status, more=f"Location: {to_uri}\r\n")


GOOD = set_of("a")
ROTATED = set_of("b")
HTML = b"<!doctype html><title>Login</title><p>Please log in"
FILE = tempfile.NamedTemporaryFile()
FILE.write(ROTATED)
FILE.flush()
# answers that are not a usable set, though many have the keys of one
MISBEHAVING = {
    "hangs before the head": hangs_after(b""),
    "hangs in the head": hangs_after(b"HTTP/1.1 200 OK\r\nContent-Le"),
    "hangs in the body": hangs_after(head(len(ROTATED)) + ROTATED[:-1]),
    "hangs after a body that it says is longer": hangs_after(head(len(ROTATED) + 1) + ROTATED),
    "dribbles the head": dribbles(b"HTTP/1.1 200 OK\r\nX: "),
    "dribbles the body": dribbles(head(100000) + ROTATED),
    "continues without end": dribbles(b"HTTP/1.1 100 Continue\r\n\r\n" * 1000),
    "cuts before the head": lambda server, to: None,
    "cuts the head": lambda server, to: to.sendall(b"HTTP/1.1 200 OK\r\nContent-Le"),
    "cuts the body": says(ROTATED[:-20], len(ROTATED)),
    "cuts a body without a length": says(ROTATED[:-20], None),
    "cuts a body in chunks": says(b"%x\r\n%s\r\n" % (len(ROTATED), ROTATED), None, more="Transfer-Encoding: chunked\r\n"),
    "says that it is longer": says(ROTATED, len(ROTATED) + 1),
    "says that it is far longer": says(ROTATED, 2**62),
    "says that it is shorter": says(ROTATED, 20),
    "says no number": says(ROTATED[:-20], "many"),
    "serves HTML": says(HTML),
    "serves HTML and 500": says(HTML, status="500 Oops"),
    "serves a set and 500": says(ROTATED, status="500 Oops"),
    "serves a set and 404": says(ROTATED, status="404 Not Found"),
    "serves nothing": says(b""),
    "serves 204": says(b"", status="204 No Content"),
    "serves a set and 206": says(ROTATED, status="206 Partial Content"),
    "serves a set and 203": says(ROTATED, status="203 Non-Authoritative Information"),
    "serves too many keys": says(set_of("b", *map(str, range(1000)))),
    "serves too many keys that are none": says(b'{"keys":[' + b"{}," * 1000 + set_of("b")[9:]),
    "serves more than a MiB": says(ROTATED + b" " * 2**20),
    "serves without end": endless,
    "serves null": says(b"null"),
    "serves a list": says(b"[]"),
    "serves no keys": says(b"{}"),
    "serves one key": says(json.dumps(key("b")).encode()),
    "serves a public key in PEM": says(b"-----BEGIN PUBLIC KEY-----\nMCowBQYDK2VwAyEA11qYAYKxCrfVS/7TyWQHOg7hcvPapiMlrwIaaPcHURo=\n-----END PUBLIC KEY-----\n"),
    "serves an empty set": says(b'{"keys":[]}'),
    "serves keys that are no list": says(b'{"keys":{"a":1}}'),
    "serves keys of unknown kinds": says(b'{"keys":[{},5,null,[],{"kty":"x"},{"kty":[]},{"kty":"EC","crv":{}}]}'),
    "serves a secret that is empty": says(b'{"keys":[{"kty":"oct","kid":"b","k":""}]}'),
    "serves deep lists": says(b"[" * 100000),
    "serves a long number": says(b'{"keys":' + b"1" * 100000),
    "serves what is not UTF-8": says(b'{"keys":["\xff\xfe"]}'),
    "serves no HTTP": says(b"", None, status="\0\0\0"),
    "has a long line": says(ROTATED, more="X: " + "x" * 100000 + "\r\n"),
    "has many lines": says(ROTATED, more="X: x\r\n" * 1000),
    "redirects to a file": redirects(f"file://{FILE.name}"),
    "redirects to ftp": redirects("ftp://127.0.0.1/keys"),
    "redirects to data": redirects("data:application/json," + ROTATED.decode().replace(" ", "")),
    "redirects to gopher": redirects("gopher://127.0.0.1/keys"),
    "redirects to itself": redirects("/keys"),
    "redirects to no host": redirects("http://"),
    "redirects to no port": redirects("http://[::1/keys"),
    "redirects to a name that is none": redirects("http://a..b" + "c" * 100 + "/keys"),
    "redirects to nowhere": says(b"", status="302 Found"),
}


@contextlib.contextmanager
def serving(answer, **arguments):
    """Gives a server with this answer, and a client of it whose times are short."""
    server = Server()
    server.answer = answer
    client = jwt.PyJWKClient(server.uri, **{"timeout": 10, **arguments})
    client._pause = 0.3
    try:
        yield server, client
    finally:
        server.close()


def decoded(client, it, **arguments):
    """Verifies a token as an app of PyJWT does."""
    signing_key = client.get_signing_key_from_jwt(it)
    return jwt.decode(it, signing_key.key, **{**HS, **arguments})


def rotation():
    with serving(says(GOOD)) as (server, client):
        gives(CLAIMS, decoded, client, token("a"))
        gives(CLAIMS, decoded, client, token("a"))
        test("one fetch", len(server.heads) == 1)
        raises(jwt.InvalidSignatureError, decoded, client, token("a", by="b"))
        raises(jwt.InvalidAlgorithmError, decoded, client, token("a"), algorithms=["HS384"])
        # the token chose a key for other algorithms, which is no fault of the program
        raises(jwt.InvalidAlgorithmError, decoded, client, token("a"), algorithms=["RS256", "EdDSA"])
        gives(CLAIMS, decoded, client, token("a"), algorithms=["RS256", "HS256", "EdDSA"])
        raises(jwt.MissingRequiredClaimError, decoded, client, token("a"), audience="web")
        server.answer = says(ROTATED)
        gives(CLAIMS, decoded, client, token("b"))
        test("a fetch for the new kid", len(server.heads) == 2)
        raises(jwt.UnknownKeyError, decoded, client, token("a"), said='"a"')
        raises(jwt.InvalidSignatureError, decoded, client, token("b", by="a"))
        test("no fetch so soon", len(server.heads) == 2)


def refetches():
    """Tokens with unknown kids cause a fetch at most every few seconds, and those without a kid none."""
    with serving(says(GOOD)) as (server, client):
        for it in range(50):
            raises(jwt.UnknownKeyError, decoded, client, token(f"x{it}", by="a"), said=f'"x{it}"')
            raises(jwt.UnknownKeyError, decoded, client, token(None, by="a"), said="no kid")
        test(f"{len(server.heads)} fetches, not 2", len(server.heads) == 2)
        time.sleep(0.31)
        raises(jwt.UnknownKeyError, decoded, client, token("y"), said='"y"')
        test(f"{len(server.heads)} fetches, not 3", len(server.heads) == 3)
        raises(jwt.PyJWKClientError, client.get_signing_key, "y" * 1000, said='"' + "y" * 100 + '.."')
        raises(jwt.UnknownKeyError, client.get_signing_key, None, said="no kid")
        raises(jwt.UnknownKeyError, client.get_signing_key, "", said='""')
        raises(TypeError, client.get_signing_key, 5, said="kid")
        for it in ("", "a.b", "a.b.c", token("a", alg="none")):
            raises(jwt.DecodeError, decoded, client, it)
        raises(jwt.InvalidTokenError, decoded, client, token(5))
        raises(jwt.DecodeError, client.get_signing_key_from_jwt, None)
        test("no further fetch", len(server.heads) == 3)
    test("the pause is 10 seconds", jwt.PyJWKClient._pause == 10)


def misbehaving():
    """A server that misbehaves changes nothing: the last set is used, and a call takes no longer than the timeout."""
    with concurrent.futures.ThreadPoolExecutor(8) as pool:
        list(pool.map(misbehaves, MISBEHAVING.items()))


def timed(name, call, *arguments):
    begin = time.monotonic()
    got = outcome(call, *arguments)
    took = time.monotonic() - begin
    test(f"{name}: {took} seconds", took < TIMEOUT + 2)
    return got


def misbehaves(named):
    name, answer = named
    with serving(says(GOOD), lifespan=0.05, timeout=10) as (server, client):
        gives(CLAIMS, decoded, client, token("a"))
        server.answer, client.timeout = answer, TIMEOUT
        time.sleep(0.06)
        test(f"{name}: the last set is used", timed(name, decoded, client, token("a")) == CLAIMS)
        test(f"{name}: a forged token", isinstance(timed(name, decoded, client, token("a", by="b")), jwt.InvalidSignatureError))
        got = timed(name, decoded, client, token("b"))
        test(f"{name}: an unknown kid: {got!r}", isinstance(got, (jwt.PyJWKClientError, jwt.PyJWKSetError)))
        got = timed(name, client.get_jwk_set, True)
        test(f"{name}: a fetch that is asked for: {got!r}", isinstance(got, (jwt.PyJWKClientError, jwt.PyJWKSetError)))
        gives(CLAIMS, decoded, client, token("a"))
        server.answer, client.timeout = says(ROTATED), 10
        time.sleep(0.31)
        gives(CLAIMS, decoded, client, token("b"))
        raises(jwt.UnknownKeyError, decoded, client, token("a"))
    with serving(answer, timeout=TIMEOUT) as (server, client):
        for it in ("a", "b"):
            got = timed(name, decoded, client, token(it))
            test(f"{name}: at first: {got!r}", isinstance(got, (jwt.PyJWKClientError, jwt.PyJWKSetError)))
        server.answer, client.timeout = says(GOOD), 10
        gives(CLAIMS, decoded, client, token("a"))


def outages():
    """While no set can be fetched, a token with an unknown kid is no refusal but a failed fetch, and one with a known kid is verified."""
    failing = {"500": says(HTML, status="500 Oops"), "no JSON": says(HTML), "no keys": says(b"{}"), "none that signs": says(set_of("a").replace(b'"kty"', b'"use":"enc","kty"'))}
    for arguments in ({}, {"cache_jwk_set": False, "cache_keys": True}, {"cache_keys": True}):
        for name, answer in failing.items():
            with serving(says(GOOD), **arguments) as (server, client):
                client._pause = 20
                gives(CLAIMS, decoded, client, token("a"))
                server.answer = answer
                fetches = len(server.heads)
                first = outcome(decoded, client, token("b"))
                test(f"{name}: {first!r}", isinstance(first, (jwt.PyJWKClientError, jwt.PyJWKSetError)) and not isinstance(first, jwt.InvalidTokenError))
                for it in "bcd":
                    got = outcome(decoded, client, token(it, by="a"))
                    is_down = isinstance(got, (jwt.PyJWKClientError, jwt.PyJWKSetError)) and not isinstance(got, jwt.InvalidTokenError)
                    test(f"{name}: {it} with {arguments}: {got!r}", is_down if "cache_jwk_set" in arguments else type(got) is jwt.PyJWKClientConnectionError)
                    gives(CLAIMS, decoded, client, token("a"))
                    raises(jwt.UnknownKeyError, decoded, client, token(None, by="a"), said="no kid")
                test(f"{name}: one fetch", len(server.heads) == fetches + 1 or "cache_jwk_set" in arguments)
    # the set that a client does not keep is fetched, and does not have the kid; then the server is down
    client = Fetching(GOOD, GOOD, OSError("down"), cache_jwk_set=False)
    client._pause = 20
    gives(CLAIMS, decoded, client, token("a"))
    for kind in (OSError, jwt.PyJWKClientConnectionError, jwt.PyJWKClientConnectionError):
        raises(kind, decoded, client, token("b", by="a"), said="down")
    gives(3, lambda: client.fetches)
    # once a set can be fetched again, it decides
    client = Fetching(GOOD, KeyError(), ROTATED)
    gives(CLAIMS, decoded, client, token("a"))
    for kind in (KeyError, jwt.PyJWKClientConnectionError, jwt.PyJWKClientConnectionError):
        raises(kind, decoded, client, token("b"))
    time.sleep(0.31)
    gives(CLAIMS, decoded, client, token("b"))
    raises(jwt.UnknownKeyError, decoded, client, token("a"))


def nobody_listens():
    with socket.socket() as silent:
        silent.bind(("127.0.0.1", 0))
        client = jwt.PyJWKClient(f"http://127.0.0.1:{silent.getsockname()[1]}/keys")
        raises(jwt.PyJWKClientConnectionError, decoded, client, token("a"), said="Fail to fetch data from the url")
    until("the threads have ended", fetching_threads, 0)


def no_signing_keys():
    """A set without keys that sign, or whose keys have no kid, takes the place of no other."""
    unnamed = [{**key(it), "kid": None} for it in "abc"]
    for keys in ([key("a", use="enc"), key("b", use="enc"), unnamed[2]], unnamed):
        keeps_the_last(json.dumps({"keys": keys}).encode())


def keeps_the_last(unusable):
    with serving(says(unusable), lifespan=0.05) as (server, client):
        raises(jwt.PyJWKClientError, client.get_signing_keys, said="did not contain any signing keys")
        raises(jwt.PyJWKClientError, decoded, client, token("a"), said="did not contain any signing keys")
        server.answer = says(GOOD)
        time.sleep(0.31)
        gives(CLAIMS, decoded, client, token("a"))
        server.answer = says(unusable)
        time.sleep(0.06)
        fetches = len(server.heads)
        gives(CLAIMS, decoded, client, token("a"))
        until("one further fetch", lambda: len(server.heads), fetches + 1)
        for _ in range(5):
            gives(CLAIMS, decoded, client, token("a"))
        test("one further fetch", len(server.heads) == fetches + 1)
        raises(jwt.PyJWKClientError, decoded, client, token("b"))
        gives(["a"], lambda: [it.key_id for it in client.get_signing_keys()])


def an_old_set():
    """A server that serves an old set for a while: the last set that it served decides."""
    with serving(says(GOOD), lifespan=0.05) as (server, client):
        gives(CLAIMS, decoded, client, token("a"))
        server.answer = says(set_of("b", "a"))
        gives(CLAIMS, decoded, client, token("b"))
        server.answer = says(GOOD)
        time.sleep(0.31)
        gives(CLAIMS, decoded, client, token("a"))
        raises(jwt.UnknownKeyError, decoded, client, token("b"))
        raises(jwt.InvalidSignatureError, decoded, client, token("a", by="b"))
        server.answer = says(ROTATED)
        time.sleep(0.31)
        gives(CLAIMS, decoded, client, token("b"))


def a_thousand_keys():
    many = set_of(*map(str, range(1000)))
    with serving(says(many), timeout=20) as (server, client):
        gives(CLAIMS, decoded, client, token("999"))
        begin = time.process_time()
        for _ in range(1000):
            decoded(client, token("999"))
        # to read it takes a tenth of a second
        test("the set is read once", time.process_time() - begin < 10 and len(server.heads) == 1)
        server.answer = says(set_of(*map(str, range(1001))))
        raises(jwt.PyJWKClientError, client.get_jwk_set, refresh=True, said="more than 1000 keys")
        server.answer = says(set_of(*map(str, range(20000))))
        raises(jwt.PyJWKClientError, client.get_jwk_set, refresh=True, said="more than 1048576 bytes")
        gives(CLAIMS, decoded, client, token("999"))
        raises(jwt.PyJWKClientError, client.jwk_set_cache.put, json.loads(set_of(*map(str, range(1001)))), said="more than 1000 keys")


@contextlib.contextmanager
def later():
    """Gives a call that sets the client's clock forward, by seconds."""
    shift, real = [0], _client._clock
    _client._clock = lambda: real() + shift[0]

    def by(seconds):
        shift[0] += seconds

    try:
        yield by
    finally:
        _client._clock = real


def until(name, call, wanted):
    """Counts whether a call returns what is wanted, at the latest after some seconds."""
    end = time.monotonic() + 20
    while (got := outcome(call)) != wanted and time.monotonic() < end:
        time.sleep(0.01)
    test(f"{name}: {got!r}, not {wanted!r}", got == wanted)


def fetching_threads():
    return sum(it.name == "jwtproved" for it in threading.enumerate())


def kids(client):
    return [it.key_id for it in client.get_jwk_set()]


def at_once(name, call, *arguments):
    """Returns what a call returns before a fetch of 20 seconds has ended."""
    begin = time.monotonic()
    got = outcome(call, *arguments)
    test(f"{name} does not wait", time.monotonic() - begin < 10)
    return got


def stale_sets():
    """While a thread fetches the set after one that is no longer fresh, that one serves, for as long as it was fresh."""
    with later() as pass_by, serving(says(GOOD), lifespan=100, timeout=20) as (server, client):
        gives(CLAIMS, decoded, client, token("a"))
        held = threading.Event()

        def waits(server, to):
            held.wait(20)
            says(ROTATED)(server, to)

        server.answer = waits
        pass_by(120)
        for _ in range(3):
            test("the last set serves", at_once("a stale set", decoded, client, token("a")) == CLAIMS)
        until("a fetch", lambda: len(server.heads), 2)
        held.set()
        until("the next set", lambda: kids(client), ["b"])
        gives(2, lambda: len(server.heads))
        # after 200 seconds the set is overdue: a key that it has may have been withdrawn long ago
        server.answer = says(set_of("c"))
        pass_by(220)
        gives(["c"], kids, client)
        server.answer = says(HTML, status="500 Oops")
        pass_by(220)
        gives(["c"], kids, client)
        server.answer = hangs_after(b"")
        pass_by(20)
        test("the last set serves", at_once("a server that hangs", decoded, client, token("c")) == CLAIMS)
    seen = contextvars.ContextVar("seen", default="nothing")

    class Contextual(Fetching):
        def fetch_data(self):
            found = super().fetch_data()
            return {"keys": [*found["keys"], key(seen.get())]}

    with later() as pass_by:
        client = Contextual(GOOD, lifespan=100)
        gives(["a", "nothing"], kids, client)
        pass_by(120)
        seen.set("a request")
        until("the context of the request", lambda: kids(client), ["a", "a request"])


def forks():
    """A child that a program forks while a thread fetches, and while a lock is taken, fetches by itself."""
    for arguments in ({}, {"cache_jwk_set": False, "cache_keys": True}):
        with later() as pass_by:
            client, held, begun = Fetching(GOOD, ROTATED, lifespan=100, **arguments), threading.Event(), threading.Event()
            gives(CLAIMS, decoded, client, token("a"))
            fetch = client.fetch_data
            client.fetch_data = lambda: (begun.set(), held.wait(20), fetch())[2]
            pass_by(120)
            waiting = threading.Thread(target=lambda: outcome(client.get_jwk_set))
            waiting.start()
            test("a fetch is under way", begun.wait(20))
            with client._lock, client._keys._lock if client._keys else contextlib.nullcontext():
                child = os.fork()
                if child == 0:
                    # ends a child that waits for a lock
                    signal.alarm(20)
                    client.fetch_data, before = fetch, failed
                    until("the set in the child", lambda: kids(client), ["b"])
                    gives(CLAIMS, decoded, client, token("b"))
                    os._exit(failed > before)
            test(f"a child with {arguments}", os.waitpid(child, 0)[1] == 0)
            held.set()
            waiting.join()


def threads():
    """Many threads that see a new kid at once cause one fetch, and all wait for it."""

    def slowly(server, to):
        time.sleep(0.1)
        says(ROTATED)(server, to)

    with serving(says(GOOD), timeout=5) as (server, client), concurrent.futures.ThreadPoolExecutor(40) as pool:
        gives([CLAIMS] * 40, lambda: list(pool.map(lambda _: decoded(client, token("a")), range(40))))
        server.answer = slowly
        gives([CLAIMS] * 40, lambda: list(pool.map(lambda _: decoded(client, token("b")), range(40))))
        test(f"{len(server.heads)} fetches, not 2", len(server.heads) == 2)
    with serving(hangs_after(b""), timeout=TIMEOUT) as (server, client), concurrent.futures.ThreadPoolExecutor(40) as pool:
        got = timed("threads", lambda: list(pool.map(lambda _: outcome(decoded, client, token("a")), range(40))))
        test(f"each is refused: {got}", all(isinstance(it, jwt.PyJWKClientConnectionError) for it in got))
        test("one fetch", len(server.heads) == 1)


def caches():
    with serving(says(GOOD), lifespan=0.1) as (server, client):
        test("the set is one", client.get_jwk_set() is client.get_jwk_set() and client.jwk_set_cache is not None)
        client.get_jwk_set(refresh=True)
        test("asked for", len(server.heads) == 2)
        time.sleep(0.11)
        client.get_jwk_set()
        until("a fetch after its lifespan", lambda: len(server.heads), 3)
    with serving(says(GOOD), cache_jwk_set=False) as (server, client):
        for _ in range(3):
            gives(CLAIMS, decoded, client, token("a"))
        test("not kept", len(server.heads) == 3 and client.jwk_set_cache is None)
        client._pause = 100
        for it in range(20):
            raises(jwt.UnknownKeyError, decoded, client, token(f"x{it}", by="a"), said=f'"x{it}"')
        # one as for any kid, and one that is further
        test(f"{len(server.heads)} fetches, not 5, for unknown kids", len(server.heads) == 5)
        gives(CLAIMS, decoded, client, token("a"))
        gives(6, lambda: len(server.heads))
    arguments = {"cache_jwk_set": False, "cache_keys": True, "max_cached_keys": 2, "lifespan": 0.2}
    with serving(says(set_of("a", "b", "c")), **arguments) as (server, client):
        for kid, fetches in (("a", 1), ("a", 1), ("b", 2), ("a", 2), ("b", 2), ("c", 3), ("b", 3), ("a", 4), ("c", 5)):
            gives(CLAIMS, decoded, client, token(kid))
            test(f"{len(server.heads)} fetches, not {fetches}", len(server.heads) == fetches)
        # a later set drops the keys that it does not have
        server.answer = says(ROTATED)
        raises(jwt.UnknownKeyError, decoded, client, token("x"))
        raises(jwt.UnknownKeyError, decoded, client, token("c"))
        time.sleep(0.21)
        server.answer = says(GOOD)
        raises(jwt.UnknownKeyError, decoded, client, token("b"))


def headers():
    sent = {"Authorization": "Bearer x", "User-agent": "y"}
    with serving(says(GOOD)) as (other, _), serving(says(GOOD), headers=sent) as (server, client):
        gives(CLAIMS, decoded, client, token("a"))
        test("headers are sent", "Authorization: Bearer x\r\n" in server.heads[0] and "User-Agent: y\r\n" in server.heads[0])
        for to, is_same in (("/other", server), (other.uri, other)):
            server.answer = lambda it, by, to=to: (says(GOOD) if "GET /other" in it.heads[-1] else redirects(to))(it, by)
            client.get_jwk_set(refresh=True)
            test(f"another host is not sent the headers: {to}", ("Bearer x" in is_same.heads[-1]) == (is_same is server))
        server.answer, client.timeout = redirects("https" + other.uri[4:]), TIMEOUT
        raises(jwt.PyJWKClientConnectionError, client.get_jwk_set, refresh=True, said="Fail to fetch")


def redirects_to_another_scheme():
    follow = _download._Redirects().redirect_request
    for before, after, is_followed in (
        ("https://h/keys", "http://h/keys", False),
        ("https://h/keys", "file:///keys", False),
        ("http://h/keys", "ftp://h/keys", False),
        ("http://h/keys", "https://h/keys", True),
        ("https://h/keys", "https://i/keys", True),
    ):
        got = outcome(follow, urllib.request.Request(before), None, 302, "Found", {}, after)
        test(f"from {before} to {after}: {got}", is_followed == isinstance(got, urllib.request.Request))
        test(f"from {before} to {after}: {got}", is_followed != isinstance(got, urllib.error.URLError))


def mocks():
    """A test's mock of urllib.request.urlopen takes the place of the server. A wrapper of Python's own function takes it of none."""
    uri = "https://login.example/keys"
    text = GOOD.decode()
    response = unittest.mock.MagicMock()
    response.__enter__.return_value.read.return_value = text
    for given in ({"return_value": response}, {"side_effect": lambda *_, **__: io.BytesIO(GOOD)}, {"return_value": response, "autospec": True}):
        with unittest.mock.patch("urllib.request.urlopen", **given) as urlopen:
            client = jwt.PyJWKClient(uri, headers={"X-a": "b"}, timeout=7)
            gives(CLAIMS, decoded, client, token("a"))
            gives(1, lambda: urlopen.call_count)
            asked, words = urlopen.call_args
            gives((uri, "b", {"timeout": 7, "context": None}), lambda: (asked[0].full_url, asked[0].get_header("X-a"), words))
            raises(jwt.InvalidSignatureError, decoded, client, token("a", by="b"))
    for error, said in ((urllib.error.URLError("down"), "down"), (TimeoutError("down"), "timed out")):
        with unittest.mock.patch("urllib.request.urlopen", side_effect=error):
            raises(jwt.PyJWKClientConnectionError, decoded, jwt.PyJWKClient(uri), token("a"), said=said)
    with unittest.mock.patch("urllib.request.urlopen", lambda *_, **__: io.BytesIO(GOOD + b" " * 2**20)):
        raises(jwt.PyJWKClientConnectionError, decoded, jwt.PyJWKClient(uri), token("a"), said="more than 1048576 bytes")
    with unittest.mock.patch("urllib.request.urlopen", lambda *_, **__: time.sleep(5)):
        raises(jwt.PyJWKClientConnectionError, decoded, jwt.PyJWKClient(uri, timeout=0.1), token("a"), said="timed out")
    real = urllib.request.urlopen

    @functools.wraps(real)
    def watched(*arguments, **words):
        return real(*arguments, **words)

    with unittest.mock.patch("urllib.request.urlopen", watched), serving(redirects("ftp://127.0.0.1/keys")) as (server, client):
        raises(jwt.PyJWKClientConnectionError, decoded, client, token("a"), said="a redirect from http to ftp")
        server.answer = says(GOOD)
        gives(CLAIMS, decoded, client, token("a"))


def threads_end():
    """A fetch that takes too long is cut, though the server goes on."""
    with serving(dribbles(head(100000)), timeout=0.1) as (_, client):
        raises(jwt.PyJWKClientConnectionError, client.get_jwk_set, said="timed out")
        # the server goes on for 80 seconds
        until("the thread has ended", fetching_threads, 0)


def arguments():
    for uri in ("", "keys", "/keys", "https://", "https:///keys", "http://:80/", "http://h:0/", "http://h:x/", "http://[/", "h:80"):
        raises(ValueError, jwt.PyJWKClient, uri, said="uri")
    for uri in ("http://h/a b", "http://h/\n", "http://h/\u00e9", " http://h/", "http://user:pass@h/", "https+x://h/", "javascript:1"):
        raises(ValueError, jwt.PyJWKClient, uri, said="uri")
    for uri in ("file:///etc/passwd", "ftp://h/", "data:application/json,{}", "gopher://h/"):
        raises(ValueError, jwt.PyJWKClient, uri, said="uri")
    uri = "https://login.example/keys"
    for wrong, kinds in {
        "uri": [None, 5, b"https://h/", ["https://h/"]],
        "cache_keys": [None, 1, "no"],
        "cache_jwk_set": [None, 0, "no"],
        "max_cached_keys": [None, 1.5, True, "16"],
        "lifespan": [None, True, "300", [300]],
        "headers": [[], "a", [("a", "b")], {"a": 5}, {5: "a"}, {"a": None}, {b"a": "b"}],
        "timeout": [None, True, "30"],
        "ssl_context": [True, "x", ssl],
    }.items():
        for it in kinds:
            raises(TypeError, jwt.PyJWKClient, **{"uri": uri, wrong: it}, said=wrong)
    for wrong, values in {
        "max_cached_keys": [-1],
        "headers": [{"": "a"}, {"a b": "c"}, {"a:": "c"}, {"a": "b\r\nc: d"}, {"a": "\u20ac"}, {"a\n": "b"}],
        "timeout": [0, -1, math.nan, math.inf, 1e300, -0.0],
    }.items():
        for it in values:
            raises(ValueError, jwt.PyJWKClient, **{"uri": uri, wrong: it}, said=wrong)
    for it in (0, -1, -0.5, math.nan):
        raises(jwt.PyJWKClientError, jwt.PyJWKClient, uri, lifespan=it, said="lifespan")
        raises(jwt.PyJWKClientError, jwt.PyJWKClient, uri, cache_jwk_set=False, cache_keys=True, lifespan=it, said="lifespan")
    for client in (
        jwt.PyJWKClient(uri, cache_jwk_set=False, lifespan=0),
        jwt.PyJWKClient(uri, True, 16, True, 300, {}, 30),
        jwt.PyJWKClient(uri, lifespan=math.inf, ssl_context=ssl.create_default_context()),
    ):
        test("a client", (client.uri, client.headers, client.timeout) == (uri, {}, 30))
    raises(TypeError, jwt.PyJWKClient, uri, cookies={})


def all_algorithms():
    """The tokens of all algorithms, which Python's cryptography signed, by the key that the client returns."""
    seen = set()
    with open(f"{TOP}/crates/jwt_vectors/data/standard.jsonl", encoding="utf-8") as file:
        rows = [it for it in map(json.loads, file) if "ok" in it["want"] and it["call"] == "decode_with_set"]
    for row in rows:
        with serving(says(json.dumps(row["set"]).encode()), timeout=10) as (server, client):
            clock, _verifier._clock = _verifier._clock, lambda row=row: row["now"]
            asked, wanted = row["validation"], row["want"]["ok"]
            options = {"algorithms": asked["algorithms"], "audience": asked.get("aud"), "issuer": asked.get("iss")}
            gives(wanted["claims"], decoded, client, row["token"], **options)
            _verifier._clock = clock
            seen.add(wanted["header"]["alg"])
    test(f"several algorithms, not {seen}", {"RS256", "ES256"} < seen)


def apps():
    """What apps of PyJWT touch."""
    with serving(says(set_of("a", "b"))) as (server, client):
        found = client.get_signing_key_from_jwt(token("a"))
        gives(("a", "oct", None), lambda: (found.key_id, found.key_type, found.public_key_use))
        gives(CLAIMS, jwt.decode, token("a"), found, **HS)
        gives(CLAIMS, lambda: jwt.decode_complete(token("a"), found.key, **HS)["payload"])
        gives(["a", "b"], lambda: [it.key_id for it in client.get_jwk_set().keys])
        gives(["a", "b"], lambda: [it.key_id for it in client.get_jwk_set()])
        gives("b", lambda: client.match_kid(client.get_signing_keys(), "b").key_id)
        gives(None, client.match_kid, client.get_signing_keys(), "c")
        gives(json.loads(set_of("a", "b")), client.fetch_data)
        shown = f"{found!r} {client.get_jwk_set()!r} {client!r}"
        test(f"no secret is shown: {shown}", "'a'" in shown and base64.urlsafe_b64encode(secret("a")).decode()[:20] not in shown)
    raises(jwt.UnknownKeyError, jwt.decode, token("c"), json.loads(set_of("a")), said='"c"', **HS)
    raises(jwt.UnknownKeyError, jwt.decode, token(None, by="a"), json.loads(set_of("a")), said="no kid", **HS)
    test("kinds", issubclass(jwt.UnknownKeyError, jwt.PyJWKClientError) and issubclass(jwt.UnknownKeyError, jwt.InvalidTokenError))
    test("a server that is down refuses no token", not issubclass(jwt.PyJWKClientError, jwt.InvalidTokenError))

    class Own(jwt.PyJWKClient):
        fetches = 0

        def fetch_data(self):
            self.fetches += 1
            return json.loads(GOOD)

    own = Own("https://login.example/keys")
    gives([CLAIMS] * 3, lambda: [decoded(own, token("a")) for _ in range(3)])
    gives(1, lambda: own.fetches)


class Fetching(jwt.PyJWKClient):
    """Fetches what the list `served` has next, and at last its last; an exception is raised."""

    def __init__(self, *served, **arguments):
        super().__init__("https://login.example/keys", **arguments)
        self._pause, self.served, self.fetches = 0.3, list(served), 0

    def fetch_data(self):
        self.fetches += 1
        got = self.served.pop(0) if len(self.served) > 1 else self.served[0]
        if isinstance(got, Exception):
            raise got
        return json.loads(got)


class Putting(Fetching):
    """Puts what it fetched where PyJWT's own fetch_data puts it."""

    def fetch_data(self):
        found = None
        try:
            found = super().fetch_data()
            return found
        finally:
            self.jwk_set_cache.put(found)


def puts():
    """The set that is kept takes what PyJWT's takes: a set, its JSON, or None."""
    client = Putting(GOOD, ROTATED, jwt.PyJWKClientError("down"), set_of("c"))
    gives([CLAIMS] * 2, lambda: [decoded(client, token("a")) for _ in range(2)])
    gives(CLAIMS, decoded, client, token("b"))
    raises(jwt.UnknownKeyError, decoded, client, token("a"))
    gives(2, lambda: client.fetches)
    raises(jwt.PyJWKClientError, client.get_jwk_set, refresh=True, said="down")
    gives(CLAIMS, decoded, client, token("b"))
    gives(3, lambda: client.fetches)
    time.sleep(0.31)
    until("the next set", lambda: (kids(client), client._under_way), (["c"], None))
    raises(jwt.UnknownKeyError, decoded, client, token("b"))
    gives(CLAIMS, decoded, client, token("c"))
    gives(5, lambda: client.fetches)
    client = Putting(GOOD, lifespan=0.05)
    for fetches in (1, 2):
        gives(CLAIMS, decoded, client, token("a"))
        until("fetches", lambda fetches=fetches, client=client: client.fetches, fetches)
        time.sleep(0.06)
    for served in (b"[]", b"{}", b'{"keys":[]}', b'{"keys":5}', b"null"):
        client = Putting(GOOD, served)
        gives(CLAIMS, decoded, client, token("a"))
        raises(jwt.PyJWTError, client.get_jwk_set, refresh=True)
        gives(CLAIMS, decoded, client, token("a"))
        raises(jwt.PyJWTError, Putting(served).get_jwk_set)
    client = Fetching(ROTATED)
    client.jwk_set_cache.put(json.loads(GOOD))
    gives(CLAIMS, decoded, client, token("a"))
    gives(0, lambda: client.fetches)
    client.jwk_set_cache.put(None)
    gives(CLAIMS, decoded, client, token("b"))
    gives(1, lambda: client.fetches)
    client.jwk_set_cache.put(jwt.PyJWKSet.from_json(GOOD))
    gives(CLAIMS, decoded, client, token("a"))
    client = Fetching(OSError("down"))
    client.jwk_set_cache.put(None)
    raises(OSError, decoded, client, token("a"), said="down")
    for it in ([], "a", 5, b"", {"keys": []}, {}):
        raises(jwt.PyJWTError, client.jwk_set_cache.put, it)
    test("nothing is kept", client.jwk_set_cache.get() is None)


def fails_by_itself():
    """A fetch by a subclass may fail with any exception: the last set is used."""
    for error in (OSError("down"), ValueError("no JSON"), RuntimeError("no answer"), KeyError("keys")):
        client = Fetching(GOOD, error, lifespan=0.05)
        gives(CLAIMS, decoded, client, token("a"))
        time.sleep(0.06)
        gives([CLAIMS] * 3, lambda client=client: [decoded(client, token("a")) for _ in range(3)])
        until("a further fetch", lambda client=client: (client.fetches, client._under_way), (2, None))
        raises(jwt.InvalidSignatureError, decoded, client, token("a", by="b"))
        raises(type(error), decoded, client, token("b"))
        raises(type(error), decoded, Fetching(error), token("a"))
    client = Fetching(GOOD, MemoryError(), lifespan=0.05)
    gives(CLAIMS, decoded, client, token("a"))
    time.sleep(0.06)
    gives(CLAIMS, decoded, client, token("a"))
    until("the memory is enough again", lambda: (client.fetches, client._under_way), (2, None))
    raises(MemoryError, client.get_jwk_set, refresh=True)


def chooses():
    """A subclass may choose among the keys by each call that PyJWT's get_signing_key makes."""
    mixed = json.dumps({"keys": [key("a"), key("b", use="enc"), key("c", use="sig")]}).encode()

    class Narrow(Fetching):
        def get_signing_keys(self, refresh=False):
            return [it for it in super().get_signing_keys(refresh) if it.public_key_use == "sig"]

    class Wide(Fetching):
        def get_signing_keys(self, refresh=False):
            return self.get_jwk_set(refresh).keys

    class Keeping(Fetching):
        own = None

        def get_signing_keys(self, refresh=False):
            if self.own is None or refresh:
                self.own = super().get_signing_keys(refresh)
            return self.own

    class Matching(Fetching):
        @staticmethod
        def match_kid(signing_keys, kid):
            return next((it for it in signing_keys if it.key_id == kid.lower()), None)

    class Fixed(Fetching):
        def get_jwk_set(self, refresh=False):
            return jwt.PyJWKSet.from_json(mixed)

    every = {"cache_jwk_set": False, "cache_keys": True}
    for kind, accepted, refused in (
        (Fetching, "ac", "bCx"),
        (Narrow, "c", "abx"),
        (Wide, "ac", "bx"),
        (Keeping, "ac", "bx"),
        (Matching, "aAcC", "bBx"),
        (Fixed, "ac", "bx"),
    ):
        for arguments in ({}, {"cache_jwk_set": False}, every, {"cache_keys": True}):
            client = kind(mixed, **arguments)
            for _ in range(2):
                for it in accepted:
                    gives(CLAIMS, decoded, client, token(it, by=it.lower()))
                for it in refused:
                    raises(jwt.UnknownKeyError, decoded, client, token(it, by=it.lower()), said=f'"{it}"')
            test(f"{kind.__name__} {arguments}: fetches by get_jwk_set alone", (client.fetches == 0) == (kind is Fixed))
    for arguments in ({}, every):
        client = Keeping(GOOD, ROTATED, **arguments)
        gives(CLAIMS, decoded, client, token("a"))
        gives(CLAIMS, decoded, client, token("b"))
        raises(jwt.UnknownKeyError, decoded, client, token("x"))
        gives(2, lambda client=client: client.fetches)
    # a key of the same kid that is another one is chosen anew
    client = Narrow(*[json.dumps({"keys": [key("a", use=it), key("b", use="sig")]}) for it in ("sig", "enc")], **every)
    gives(CLAIMS, decoded, client, token("a"))
    gives(CLAIMS, decoded, client, token("b"))
    raises(jwt.UnknownKeyError, decoded, client, token("a"))


def without_kids():
    """Sets whose keys have no kid follow each other, and are kept as long as others."""
    one, other = (json.dumps({"keys": [{**key(it), "kid": None}]}).encode() for it in "ab")

    def only(client):
        return decoded_by(client.get_jwk_set().keys[0])

    def decoded_by(found):
        return [it for it in "ab" if outcome(jwt.decode, token(it), found, **HS) == CLAIMS]

    client = Fetching(one, other, lifespan=0.2)
    gives([["a"]] * 3, lambda: [only(client) for _ in range(3)])
    gives(1, lambda: client.fetches)
    time.sleep(0.31)
    until("the next set", lambda: only(client), ["b"])
    gives([["b"]] * 3, lambda: [only(client) for _ in range(3)])
    client = Fetching(one, GOOD, other, lifespan=0.05)
    gives(["a"], only, client)
    gives(CLAIMS, decoded, client, token("a"))
    time.sleep(0.31)
    until("a further fetch", lambda: (only(client), client.fetches, client._under_way), (["a"], 3, None))


def verifiers():
    """A Verifier fetches the set of a client for its first token, and a later set for a token with an unknown kid."""
    client = Fetching(GOOD, ROTATED, OSError("down"))
    verifier = jwt.Verifier(client, ["HS256"])
    gives(0, lambda: client.fetches)
    for _ in range(3):
        gives(CLAIMS, verifier.decode, token("a"))
        raises(jwt.InvalidSignatureError, verifier.decode, token("a", by="b"))
        raises(jwt.UnknownKeyError, verifier.decode, token(None, by="a"), said="no kid")
        raises(jwt.ExpiredSignatureError, verifier.decode, of("a", kid="a", exp=5), now=5)
    gives(1, lambda: client.fetches)
    gives(CLAIMS, verifier.decode, token("b"))
    gives(CLAIMS, lambda: json.loads(verifier.raw_claims(token("b"))))
    raises(jwt.UnknownKeyError, verifier.decode, token("a"), said='"a"')
    gives(2, lambda: client.fetches)
    time.sleep(0.31)
    raises(OSError, verifier.decode, token("x", by="b"), said="down")
    raises(jwt.PyJWKClientConnectionError, verifier.decode, token("x", by="b"), said="down")
    gives(CLAIMS, verifier.decode, token("b"))
    # the next set has the same keys: its verifier stays
    client = Fetching(GOOD, lifespan=0.05)
    verifier = jwt.Verifier(client, ["HS256"])
    gives(CLAIMS, verifier.decode, token("a"))
    first = verifier._made
    time.sleep(0.06)
    gives(CLAIMS, verifier.decode, token("a"))
    until("a further fetch", lambda: (client.fetches, client._under_way), (2, None))
    gives(CLAIMS, verifier.decode, token("a"))
    test("the verifier stays", verifier._made is first)
    raises(OSError, jwt.Verifier(Fetching(OSError("down")), ["HS256"]).decode, token("a"), said="down")
    raises(jwt.InvalidKeyError, jwt.Verifier(Fetching(GOOD), ["RS256"]).decode, token("a"), said="no key of the set fits")
    raises(ValueError, jwt.Verifier, Fetching(GOOD, cache_jwk_set=False), ["HS256"], said="leave out its cache_jwk_set=False")


def of(issuer, kid=None, by=None, **claims):
    """Returns a token of an issuer, which names a key, and is signed by it or by another one."""
    return tokens.signed({"alg": "HS256", "kid": kid or issuer}, {"iss": issuer, **claims}, secret(by or kid or issuer)).decode()


def issuers():
    """Each of several issuers has its own key set, which rotates by itself; a key of one signs no token of another."""
    a, b = Fetching(set_of("a"), lifespan=100), Fetching(set_of("b"), set_of("b"), set_of("b2"), lifespan=100)
    a._pause = b._pause = 20
    either = jwt.ByIssuer(jwt.Verifier(a, ["HS256"], issuer="a"), jwt.Verifier(b, ["HS256"], issuer=["b", "old b"]), jwt.Verifier(secret("c"), ["HS256"], issuer="c"))
    for _ in range(3):
        for it in ("a", "b", "c"):
            gives({"iss": it}, either.decode, of(it))
        for issuer, kid in (("b", "a"), ("a", "b"), ("c", "a"), ("c", "b"), ("a", "c"), ("d", "a"), ("d", "c"), ("", "a")):
            got = outcome(either.decode, of(issuer, kid))
            test(f"{issuer} with the key {kid}: {got!r}", isinstance(got, jwt.InvalidTokenError))
        got = outcome(either.decode, token("a"))
        test(f"no issuer: {got!r}", isinstance(got, jwt.MissingRequiredClaimError) and got.claim == "iss")
    # an unknown kid has caused a further fetch from the issuer that the token names
    gives((2, 2), lambda: (a.fetches, b.fetches))
    raises(jwt.UnknownKeyError, either.decode, of("b", "b2"))
    b._refetch_from = -math.inf
    gives({"iss": "b"}, either.decode, of("b", "b2"))
    raises(jwt.UnknownKeyError, either.decode, of("b"))
    for it in range(30):
        raises(jwt.ExpiredSignatureError, either.decode, of("a", exp=5), now=5)
        raises(jwt.InvalidIssuerError, either.decode, of("d", "b2"))
    gives((2, 3), lambda: (a.fetches, b.fetches))
    gives({"iss": "old b"}, either.decode, of("old b", "b2"))


def issuers_that_are_down():
    """An issuer whose key server is down, or hangs, does not keep the tokens of another one."""
    with later() as pass_by:
        a, b = Fetching(set_of("a"), lifespan=100), Fetching(OSError("down"), OSError("down"), set_of("b"), OSError("down"), lifespan=100)
        either = jwt.ByIssuer(jwt.Verifier(a, ["HS256"], issuer="a"), jwt.Verifier(b, ["HS256"], issuer="b"))
        for _ in range(3):
            gives({"iss": "a"}, either.decode, of("a"))
        gives(0, lambda: b.fetches)
        for fetches in (1, 2):
            raises(OSError, either.decode, of("b"), said="down")
            gives({"iss": "a"}, either.decode, of("a"))
            gives(fetches, lambda: b.fetches)
        gives({"iss": "b"}, either.decode, of("b"))
        # the sets are overdue; that of a is fetched for a token of a, and the last one of b is used
        pass_by(1000)
        held, fetch = threading.Event(), b.fetch_data
        b.fetch_data = lambda: (held.wait(20), fetch())[1]
        gives({"iss": "a"}, at_once, "a token of a", either.decode, of("a"))
        waiting = threading.Thread(target=lambda: outcome(either.decode, of("b")))
        waiting.start()
        gives({"iss": "a"}, at_once, "a token of a", either.decode, of("a"))
        held.set()
        waiting.join()
        for it in ("a", "b"):
            gives({"iss": it}, either.decode, of(it))
            raises(jwt.InvalidTokenError, either.decode, of("a", "b"))
    # no key of a later set fits the algorithms of its issuer
    rsa = json.dumps({"keys": [{"kty": "OKP", "crv": "Ed25519", "kid": "e", "x": "11qYAYKxCrfVS_7TyWQHOg7hcvPapiMlrwIaaPcHURo"}]}).encode()
    a, b = Fetching(set_of("a")), Fetching(set_of("b"), rsa)
    either = jwt.ByIssuer(jwt.Verifier(b, ["HS256"], issuer="b"), jwt.Verifier(a, ["HS256"], issuer="a"))
    gives([{"iss": "a"}, {"iss": "b"}], lambda: [either.decode(of(it)) for it in "ab"])
    b.get_jwk_set(refresh=True)
    gives({"iss": "a"}, either.decode, of("a"))
    raises(jwt.InvalidKeyError, either.decode, of("b"), said="no key of the set fits")


def issuers_in_threads():
    """Many threads use one verifier of several issuers while their keys rotate."""
    a, b = (Fetching(*[set_of(f"{it}{number}", it) for number in range(20)], lifespan=0.01) for it in "ab")
    either = jwt.ByIssuer(jwt.Verifier(a, ["HS256"], issuer="a"), jwt.Verifier(b, ["HS256"], issuer="b"))

    def work(number):
        issuer, other = ("a", "b") if number % 2 else ("b", "a")
        return all(either.decode(of(issuer)) == {"iss": issuer} and isinstance(outcome(either.decode, of(issuer, by=other)), jwt.InvalidSignatureError) for _ in range(100))

    with concurrent.futures.ThreadPoolExecutor(8) as pool:
        got = list(pool.map(work, range(16)))
    test(f"threads over issuers: {got}", all(got) and a.fetches > 3)


class SlowLock:
    """A lock after which a thread waits, so that others come between two of its steps."""

    def __init__(self):
        self.lock = threading.Lock()

    def __enter__(self):
        self.lock.acquire()

    def __exit__(self, *_):
        self.lock.release()
        time.sleep(0.002)


def threads_at_once():
    """No thread takes a kid for unknown while another one begins the fetch that brings it."""
    with concurrent.futures.ThreadPoolExecutor(16) as pool:
        for _ in range(10):
            client = Fetching(GOOD, ROTATED)
            client._lock, client._pause = SlowLock(), 10
            gives(CLAIMS, decoded, client, token("a"))
            got = list(pool.map(lambda _: outcome(decoded, client, token("b")), range(16)))
            test(f"all threads have the new key: {got}", got == [CLAIMS] * 16)
            test(f"{client.fetches} fetches, not 2", client.fetches == 2)


for step in (rotation, refetches, misbehaving, outages, nobody_listens, no_signing_keys, an_old_set, a_thousand_keys, threads, caches, headers):
    step()
for step in (redirects_to_another_scheme, mocks, threads_end, arguments, all_algorithms, apps):
    step()
for step in (puts, fails_by_itself, chooses, without_kids, verifiers, issuers, issuers_that_are_down, issuers_in_threads, threads_at_once, stale_sets, forks):
    step()
print(f"{passed} tests of PyJWKClient, {failed} failed")
sys.exit(failed > 0)
