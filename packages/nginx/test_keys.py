"""Tests that keys are fetched, kept and replaced: auth_jwt_key_request, auth_jwt_key_cache and several auth_jwt_key_files."""
import contextlib
import http.client
import json
import random
import re
import select
import socket
import tempfile
import threading
import time

from harness import CONNECTIONS, MANY, NOW, Server, Watched, eventually, free_port, made, many_items, oct_key, resident, signed, started, test, under_valgrind, warnings
from key_server import KeyServer, close, cut, endless, frame, hang, head, http2, late, memcached, short, stop_midway, whole

SECRETS = {kid: f"the secret of the key {kid}, of 32 bytes or more".encode() for kid in "abcdefgh"}
# seconds between fetches, after which a set is old, and after which a fetch is given up
PAUSE, OLD, LIMIT = 10, 3600, 60

FETCHED = """
    auth_jwt_alg HS256;
    add_header X-Status "$jwt_status" always;
    add_header X-Sub "$jwt_claim_sub" always;
    add_header X-Test "$jwt_failed_test" always;
    proxy_read_timeout 2s;
    location / {{ set $seen $from; auth_jwt fetched; auth_jwt_key_request /keys; }}
    location = /keys {{
        internal; proxy_pass http://127.0.0.1:{keys}/jwks?of=$http_x_from$arg_from;
        proxy_set_header X-Host $host; proxy_set_header X-Map $from; proxy_set_header X-Uri $request_uri; proxy_set_header X-Line $request;
    }}
    # other rules over the same keys have a fetch of their own, and the same rules do not
    location /audience {{ auth_jwt fetched; auth_jwt_key_request /keys; auth_jwt_aud app; }}
    location /same {{ auth_jwt same; auth_jwt_key_request /keys; }}
    location /anew {{ auth_jwt fetched; auth_jwt_key_request /keys; auth_jwt_cache 0; }}
    location /curve {{ auth_jwt curve; auth_jwt_alg ES256; auth_jwt_key_request /keys; }}
    location /plain {{ }}
    location /seldom {{ auth_jwt fetched; auth_jwt_key_request /keys; auth_jwt_key_cache 1d; }}
    location /backend {{ auth_jwt fetched; auth_jwt_key_request /keys; proxy_pass http://127.0.0.1:{backend}; proxy_read_timeout 5s; }}
    # files and an uri
    location /files {{ auth_jwt files; auth_jwt_key_file {work}/a.json; auth_jwt_key_file {work}/b.json; }}
    location /both {{ auth_jwt both; auth_jwt_key_file {work}/g.json; auth_jwt_key_request /keys; }}
    location /joined {{ auth_jwt joined; auth_jwt_key_file {work}/a.json; auth_jwt_key_request /keys; auth_jwt_key_file {work}/last.json; }}
    # each source has an issuer
    location /bound {{
        auth_jwt bound; auth_jwt_key_request /keys iss=a.example; auth_jwt_key_request /others iss=b.example;
        auth_jwt_key_file {work}/g.json iss=g.example;
    }}
    location /bound_both {{
        auth_jwt bound; auth_jwt_key_file {work}/last.json iss=b.example; auth_jwt_key_request /keys iss=a.example;
        auth_jwt_key_request /others iss=b.example;
    }}
    location /bound_single {{ auth_jwt bound; auth_jwt_key_file {work}/single.json iss=b.example; auth_jwt_key_request /keys iss=a.example; }}
    location /bound_first {{ auth_jwt bound; auth_jwt_key_request /keys iss=a.example; auth_jwt_key_request /others iss=b.example; }}
    location = /others {{ internal; proxy_pass http://127.0.0.1:{others}/jwks; }}
    location /named {{ auth_jwt named; auth_jwt_key_file {work}/a.json; auth_jwt_iss a.example; }}
    location /bound_files {{ auth_jwt bound; auth_jwt_key_file {work}/a.json iss=a.example; auth_jwt_key_file {work}/single.json iss=b.example; }}
    # where the keys come from
    location /of_file {{ auth_jwt file; auth_jwt_key_request /file; }}
    location = /file {{ internal; alias {work}/set.json; }}
    location /of_store {{ auth_jwt store; auth_jwt_key_request /store; }}
    location = /store {{ internal; proxy_cache stored; proxy_cache_valid 1m; proxy_pass http://127.0.0.1:{keys}/jwks; }}
    location /of_second {{ auth_jwt second; auth_jwt_key_request /first; }}
    location = /first {{ internal; proxy_pass http://127.0.0.1:1/; error_page 502 = /file; }}
    location /of_memcached {{ auth_jwt memcached; auth_jwt_key_request /memcached; }}
    location = /memcached {{ internal; set $memcached_key keys; memcached_pass 127.0.0.1:{keys}; memcached_read_timeout 1s; }}
    location /of_grpc {{ auth_jwt grpc; auth_jwt_key_request /grpc; }}
    location = /grpc {{ internal; grpc_pass 127.0.0.1:{keys}; grpc_read_timeout 1s; }}
    location /of_text {{ auth_jwt text; auth_jwt_key_request /text; }}
    location = /text {{ internal; return 200 '{{"keys":[{text}]}}'; }}
    location /of_none {{ auth_jwt none; auth_jwt_key_request /none; }}
    location = /none {{ internal; return 204; }}
    location /held {{ auth_jwt held; auth_jwt_key_request /slow_keys; }}
    location = /slow_keys {{ internal; proxy_pass http://127.0.0.1:{keys}/jwks; proxy_read_timeout 60s; }}
    # where a token is asked for
    location /gated {{ auth_request /gate; }}
    location = /gate {{ internal; auth_jwt gate; auth_jwt_key_request /keys; empty_gif; }}
    location /returned {{ auth_request /gate_return; }}
    location = /gate_return {{ internal; auth_jwt gate; auth_jwt_key_request /keys; auth_jwt_leeway 1s; return 204; }}
    location /any {{ satisfy any; deny all; auth_jwt any; auth_jwt_key_request /keys; auth_jwt_leeway 2s; }}
    location /two {{ auth_jwt two; auth_jwt_key_request /file; error_page 401 = @other; }}
    location @other {{ auth_jwt other; auth_jwt_key_request /keys; auth_jwt_leeway 3s; try_files /index.html =404; }}
    location = /page {{ ssi on; ssi_types *; }}
    location = /parts {{ ssi on; ssi_types *; }}
    location = /part {{ auth_jwt part token=$arg_t; auth_jwt_key_request /keys; ssi on; ssi_types *; }}
    location /below {{
        auth_jwt below; auth_jwt_key_request /below/keys; auth_jwt_leeway 5s;
        location = /below/keys {{ internal; proxy_pass http://127.0.0.1:{keys}/jwks; }}
    }}
"""
HTTP = """
    proxy_cache_path {work}/store keys_zone=stored:1m;
    map $http_x_from $from {{ default known; evil evil; }}
    server {{
        listen 127.0.0.1:{http2} http2;
        root {work}/root;
        auth_jwt_alg HS256;
        location / {{ auth_jwt fetched; auth_jwt_key_request /keys; }}
        location = /keys {{ internal; proxy_pass http://127.0.0.1:{keys}/jwks; }}
    }}
"""


def token(kid, secret=None, **claims):
    return signed({"exp": NOW + 10**6, "sub": kid, **claims}, secret or SECRETS[kid], kid=kid)


def keys(kids):
    return [oct_key(kid, SECRETS[kid]) for kid in kids]


@contextlib.contextmanager
def servers(module):
    """Runs a server of keys, one that answers late, and an nginx that takes keys from it, which is not started."""
    with tempfile.TemporaryDirectory(prefix="nginx-jwt-") as work:
        served, others, backend = KeyServer(whole(keys("a"))), KeyServer(whole(keys("b"))), KeyServer(late(3, whole("served\n")))
        text, http2_port = json.dumps(oct_key("a", SECRETS["a"])).replace("{", "{{").replace("}", "}}"), free_port()
        confs = [FETCHED, HTTP]
        for name, value in (("keys", served.port), ("others", others.port), ("backend", backend.port), ("text", text), ("http2", http2_port)):
            confs = [it.replace(f"{{{name}}}", str(value)) for it in confs]
        server = Watched(module, work, *confs)
        for name in ("part", "page", "parts", "index.html"):
            server.write(f"root/{name}", "served\n")
        server.others, server.backend = others, backend
        for kid in "abg":
            server.write(f"{kid}.json", {"keys": keys(kid)})
        server.write("last.json", {"keys": [*keys("b"), oct_key("c", SECRETS["h"])]})
        server.write("set.json", {"keys": keys("a")})
        server.write("single.json", keys("b")[0])
        server.keys, server.http2, server.now = served, http2_port, NOW
        server.at(NOW)
        try:
            yield server
        finally:
            for it in (served, others, backend):
                it.stop()


def later(server, seconds):
    """Sets the clock of the server some seconds on."""
    server.now += seconds
    server.at(server.now)


def together(count, call):
    """Returns what this many threads get that call at the same time."""
    got = []
    threads = [threading.Thread(target=lambda: got.append(call())) for _ in range(count)]
    for thread in threads:
        thread.start()
    for thread in threads:
        thread.join()
    return got


def asks(server, name, wanted, fetches, path="/"):
    """Tests the statuses of tokens by the kids that they name, and how often keys are fetched for them."""
    before = len(server.keys.asked)
    got = {kid: server.get(path, token(kid[0], SECRETS["h"] if kid.endswith("!") else None))[0] for kid in wanted}
    test(f"{name}: {got}, wanted {wanted}", got == wanted)
    # one in the background may begin after the answer
    eventually(lambda: len(server.keys.asked) >= before + fetches)
    test(f"{name}: {len(server.keys.asked) - before} fetches, wanted {fetches}", len(server.keys.asked) - before == fetches)


def rotation(server):
    """The keys that are fetched are those of the server, within ten seconds of a token that names another."""
    test("no token, no fetch", server.get("/")[0] == 401 and not server.keys.asked)
    asks(server, "the first token", {"a": 200}, 1)
    asks(server, "forged tokens, also of an unknown key", {"a!": 401, "b": 401, "b!": 401, "a": 200}, 0)
    server.keys.answer = whole(keys("b"))
    asks(server, "too early for another set", {"b": 401, "a": 200}, 0)
    later(server, PAUSE)
    asks(server, "the next set, and no token that was accepted with the first", {"b": 200, "a": 401, "b!": 401}, 1)
    server.keys.answer = whole(keys("a"))
    later(server, PAUSE)
    asks(server, "a known key needs no fetch", {"b": 200}, 0)
    asks(server, "an old set for a while", {"c": 401, "a": 200, "b": 401}, 1)
    server.keys.answer = whole(keys("bc"))
    later(server, PAUSE)
    asks(server, "two keys", {"c": 200, "b": 200, "a": 401, "c!": 401}, 1)
    server.keys.answer = whole(keys("cd"))
    later(server, OLD - 1)
    asks(server, "a set that is not yet old", {"b": 200}, 0)
    later(server, 1)
    asks(server, "an old set still serves", {"b": 200}, 1)
    test("and another one comes", eventually(lambda: server.get("/", token("d"))[0] == 200 and server.get("/", token("b"))[0] == 401))
    later(server, -OLD)
    before = len(server.keys.asked)
    test("a clock that is set back", server.get("/", token("d"))[0] == 200 and eventually(lambda: len(server.keys.asked) == before + 1))
    asks(server, "the same rules have the same set", {"d": 200}, 0, "/same")
    asks(server, "others fetch it again", {"d": 401}, 1, "/audience")
    for path in ("/anew", "/seldom"):
        asks(server, path, {"d": 200, "a!": 401}, 1, path)
    later(server, OLD)
    asks(server, "a set that lasts a day", {"d": 200}, 0, "/seldom")


def faults(server):
    """Whatever the server of keys does, the last good set decides."""
    server.keys.answer = whole(keys("a"))
    later(server, OLD)
    eventually(lambda: server.get("/", token("a"))[0] == 200)
    many = [oct_key("c", SECRETS["c"])] + [oct_key(f"{n}", b"x" * 80) for n in range(10000)]
    for name, answer in (
        ("a closed connection", close),
        ("a hang", hang),
        ("a hang midway", stop_midway(keys("c"))),
        ("a cut", cut(keys("c"))),
        ("a length that is too small", short(keys("c"))),
        ("HTML", whole("<html><body>Sign in</body></html>")),
        ("an error", whole(keys("c"), "500 Oops")),
        ("a page that is not there", whole(keys("c"), "404 Not Found")),
        ("another status", whole(keys("c"), "203 Other")),
        ("a redirect", whole(keys("c"), "302 Found", "Location: /\r\n")),
        ("nothing", whole("")),
        ("an empty set", whole([])),
        ("a set of a weak key", whole([{"kty": "RSA", "kid": "c", "n": "AQAB", "e": "AQAB"}])),
        ("a set of a key that anyone has", whole([oct_key("c", b"")])),
        ("a set of the text of a key as secret", whole([oct_key("c", b"-----BEGIN PUBLIC KEY-----")])),
        ("a set of odd items", whole([7, {"kty": "AKP", "kid": "c"}, {**keys("c")[0], "use": "enc"}])),
        ("a set of another family", whole(curve_keys(1))),
        ("a set without a kid", whole([{"kty": "oct", "k": keys("c")[0]["k"]}])),
        ("a set whose kids are null", whole([{**it, "kid": None} for it in keys("c") + curve_keys(1)])),
        ("a single key", whole(json.dumps(keys("c")[0]))),
        ("a single key with keys that are no list", whole(json.dumps({**keys("c")[0], "keys": {}}))),
        ("a public key in PEM", whole("-----BEGIN PUBLIC KEY-----\nMCowBQYDK2VwAyEA11qYAYKxCrfVS/7TyWQHOg7hcvPapiMlrwIaaPcHURo=\n-----END PUBLIC KEY-----\n")),
        ("no HTTP", lambda connection: connection.sendall(b"x" * 5000)),
        ("a set of more than 1 MiB", whole(many)),
        ("more than 1 MiB without a length", lambda connection: connection.sendall(head() + b" " * 1048577 + json.dumps({"keys": keys("c")}).encode())),
        ("what does not end", endless),
        ("no set in packed form", whole("\x1f\x8b\x08", more="Content-Encoding: gzip\r\n")),
    ):
        server.keys.answer = answer
        later(server, PAUSE)
        began = time.monotonic()
        asks(server, name, {"c": 503, "a": 200, "a!": 401}, 1)
        test(f"{name}: it took {time.monotonic() - began}", time.monotonic() - began < 4)
        asks(server, f"{name}, again", {"c": 503, "a": 200, "b!": 503}, 0)
    later(server, PAUSE)
    _, headers = server.get("/", token("c"))
    test(f"no verdict: {headers['X-Status']} {headers['WWW-Authenticate']}", headers["X-Status"] == "NoKey" and headers["WWW-Authenticate"] is None)
    before = len(server.keys.asked)
    later(server, PAUSE)
    for header in ({}, {"kid": None}):
        nameless = made.signed({"alg": "HS256", **header}, {"exp": NOW + 10**6}, SECRETS["c"], "sha256").decode()
        test(f"a token without a kid is refused, and causes no fetch: {header}", server.get("/", nameless)[0] == 401 and len(server.keys.asked) == before)
    said = server.read("error.log")
    test("the faults are reported", said.count('auth_jwt: no keys from "/keys" of server "') >= 20)
    unusable = ": No key fits the algorithms: keys[0] is "
    for cause in (
        "status 500, ",
        " bytes: another status than 200",
        ": more than 1 MiB",
        ": cut",
        ": no JSON Web Key Set\n",
        ": No key fits the algorithms: the set is empty\n",
        f"{unusable}skipped: Key fits no algorithm\n",
        f"{unusable}skipped: Secret is empty or all zeros\n",
        f"{unusable}skipped: Secret is the text of a key\n",
        f"{unusable}skipped: Invalid key; keys[1] is skipped: UnsupportedAlgorithm; keys[2] is skipped: Key is not for signatures\n",
        f"{unusable}for ES256\n",
        f"{unusable}for HS256, HS384, HS512, without a kid\n",
        f"{unusable}for HS256, HS384, HS512, without a kid; keys[1] is for ES256, without a kid\n",
    ):
        test(f"a fault is reported: {cause}", re.search(f"no keys from .*{re.escape(cause)}", said))
    test("no key of a set that is not taken is in a line of its own", not warnings(server, "request"))
    server.keys.answer = whole(keys("c"))
    later(server, PAUSE)
    asks(server, "a good set after them", {"c": 200, "a": 401, "b!": 401}, 1)
    many = [oct_key(f"{n}", f"the secret of key {n}".encode()) for n in range(9999)] + keys("e")
    server.keys.answer = whole(many)
    later(server, PAUSE)
    began = time.monotonic()
    asks(server, "a set of 10000 keys", {"e": 200, "c": 401}, 1)
    test(f"a set of 10000 keys: {time.monotonic() - began} s", time.monotonic() - began < 5)
    test("one of them", server.get("/", signed({"exp": NOW + 10**6}, b"the secret of key 5000", kid="5000"))[0] == 200)
    server.keys.answer = whole(keys("a"))
    later(server, PAUSE)
    asks(server, "a small set after it", {"a": 200, "e": 401}, 1)


def odd(server):
    """Odd items of a fetched set are skipped, and logged once; the last good set stays if no key of the next one is usable."""
    seen = len(warnings(server, "request"))

    def said():
        return warnings(server, "request")[seen:]

    of_keys = ' "/keys" of server "": '
    server.keys.answer = whole([{"kty": "AKP", "kid": "c"}, *keys("c"), {**keys("d")[0], "use": "enc"}, {**keys("e")[0], "kid": 7}, oct_key("f", b""), {**keys("g")[0], "alg": "HS512"}])
    wanted = [f"{of_keys}keys[{at}] is skipped: {reason}" for at, reason in ((0, "UnsupportedAlgorithm"), (2, "Key is not for signatures"), (3, "Invalid key"), (4, "Secret is empty or all zeros"))]
    later(server, PAUSE)
    asks(server, "a set with odd items", {"e": 401, "c": 200, "d": 401, "f": 401, "g": 401, "c!": 401, "a": 401}, 1)
    test(f"what is skipped: {said()}, wanted {wanted}", said() == wanted)
    _, headers = server.get("/", signed({"exp": NOW + 10**6}, b"", kid="f"))
    test(f"an empty secret: {headers['X-Status']}", headers["X-Status"] == "NoKey")
    later(server, OLD)
    asks(server, "the same set again", {"c": 200}, 1)
    time.sleep(0.3)
    test("it is logged once", said() == wanted)
    server.keys.answer = whole([{"kty": "AKP", "kid": "c"}, {**keys("d")[0], "use": "enc"}])
    later(server, PAUSE)
    asks(server, "a set of odd items alone", {"d": 503, "c": 200}, 1)
    reasons = "keys[0] is skipped: UnsupportedAlgorithm; keys[1] is skipped: Key is not for signatures\n"
    test("its reasons are in the log", re.search(rf"\[error\] .*no keys from{re.escape(of_keys)}status 200, \d+ bytes: No key fits the algorithms: {re.escape(reasons)}", server.read("error.log")))
    test("and in no line of their own", said() == wanted)
    server.keys.answer = whole(keys("a"))
    later(server, PAUSE)
    asks(server, "a set without odd items", {"a": 200, "c": 401}, 1)
    test("nothing is skipped", said() == wanted)


def many_odd(server):
    """A fetched set of a great number of odd items has the key at its end, and does not fill the log."""
    seen = len(warnings(server, "request"))
    server.keys.answer = whole(many_items(keys("b")[0]))
    later(server, PAUSE)
    began = time.monotonic()
    asks(server, f"{MANY} odd items", {"b": 200, "c": 401}, 1)
    test(f"{MANY} odd items: {time.monotonic() - began} s", time.monotonic() - began < 5)
    said = [it.partition(": ")[2] for it in warnings(server, "request")[seen:]]
    wanted = [*(f"keys[{at}] is skipped: Invalid key" for at in range(10)), f"also skipped: {MANY - 10} of {MANY + 1} keys"]
    test(f"what is skipped of them: {said}, wanted {wanted}", said == wanted)
    server.keys.answer = whole(keys("a"))
    later(server, PAUSE)
    asks(server, "a small set after them", {"a": 200, "b": 401}, 1)


# the prime of P-256 and its base point (FIPS 186-4, D.1.2.3)
PRIME = 2**256 - 2**224 + 2**192 + 2**96 - 1
BASE = (
    0x6B17D1F2E12C4247F8BCE6E563A440F277037D812DEB33A0F4A13945D898C296,
    0x4FE342E2FE1A7F9B8EE7EB4A7C0F9E162BCE33576B315ECECBB6406837BF51F5,
)


def curve_keys(count):
    """Returns this many keys on P-256: the base point twice, three times and so on."""
    (x, y), found = BASE, []
    slope = (3 * x * x - 3) * pow(2 * y, -1, PRIME)
    for number in range(count):
        if number:
            slope = (y - BASE[1]) * pow(x - BASE[0], -1, PRIME)
        last, x = x, (slope * slope - x - BASE[0]) % PRIME
        y = (slope * (last - x) - y) % PRIME
        found.append({"kty": "EC", "crv": "P-256", "kid": f"{number:x}", **{name: made.part(it.to_bytes(32, "big")).decode() for name, it in (("x", x), ("y", y))}})
    return found


def longest_wait(server, ends):
    """Returns how long a request waited that needs no key, until this event."""
    longest = 0
    while not ends.is_set():
        began = time.monotonic()
        server.get("/plain")
        longest = max(longest, time.monotonic() - began)
    return longest


def large(server):
    """A set of 1 MiB does not stop a worker, and the same set again is not read again."""
    text, waits = json.dumps({"keys": curve_keys(7500)}, separators=(",", ":")), []
    test(f"a set of {len(text)} bytes", 2**20 - 4096 < len(text) < 2**20)
    unsigned = made.part(json.dumps({"alg": "ES256", "kid": f"{7499:x}"}).encode()).decode() + ".e30." + "A" * 86
    # again if the machine is busy
    while len(waits) < 20 and 0.2 < min(waits, default=1) < 2:
        # not the text before it
        server.keys.answer, ends = whole(text + " " * len(waits)), threading.Event()
        later(server, OLD)
        before = len(server.keys.asked)
        thread = threading.Thread(target=lambda: waits.append(longest_wait(server, ends)))
        thread.start()
        status, headers = server.get("/curve", unsigned)
        test("a fetch of it", eventually(lambda: len(server.keys.asked) == before + 1))
        time.sleep(0.5)
        ends.set()
        thread.join()
        # the key is found
        test(f"one of its keys: {status} {headers['X-Status']}", (status, headers["X-Status"]) == (401, "InvalidSignature"))
    test(f"requests that need no key waited {waits} s", min(waits) <= 0.2)
    server.keys.answer = whole(keys("c"))
    asks(server, "a small set", {"c": 200}, 1)
    later(server, OLD)
    asks(server, "the same set again", {"c": 200}, 1)
    time.sleep(0.3)
    got = server.ask("/", token("c"))
    test(f"a token that was accepted before it: {got}", got == (200, 0))


def waiting(server):
    """Requests that need a set wait for one fetch, and others do not."""
    server.keys.answer = late(0.5, whole(keys("b")))
    later(server, PAUSE)
    before = len(server.keys.asked)
    got = together(40, lambda: server.get("/", token("b"))[0])
    test(f"40 requests of an unknown key: {got}", got == [200] * 40 and len(server.keys.asked) == before + 1)
    server.keys.answer = late(0.8, whole(keys("a")))
    later(server, PAUSE)
    thread = threading.Thread(target=server.get, args=("/", token("a")))
    thread.start()
    eventually(lambda: len(server.keys.asked) == before + 2)
    began = time.monotonic()
    test("the last good set meanwhile", server.get("/", token("b"))[0] == 200 and server.get("/", token("b", SECRETS["h"]))[0] == 401)
    test("which needs no waiting", time.monotonic() - began < 0.5)
    test("what comes for the key waits", server.get("/", token("a"))[0] == 200 and len(server.keys.asked) == before + 2)
    thread.join()
    # an old set is used while another comes, which the next request on the same connection waits for
    server.keys.answer = late(0.5, whole(keys("c")))
    later(server, OLD)
    connection = http.client.HTTPConnection("127.0.0.1", server.port, timeout=20)
    took = []
    for kid in ("a", "c", "c"):
        began = time.monotonic()
        connection.request("GET", "/", headers={"Authorization": f"Bearer {token(kid)}"})
        answer = connection.getresponse()
        answer.read()
        took.append((answer.status, time.monotonic() - began < 0.4))
    test(f"an old set on one connection: {took}", [it[0] for it in took] == [200] * 3 and took[0][1] and took[2][1])
    for method, body, size in (("HEAD", None, 0), ("POST", b"x" * 100000, 3), ("PUT", b"{}", 3)):
        server.keys.answer = whole(keys("a" if method == "POST" else "b"))
        later(server, PAUSE)
        connection.request(method, "/", body, {"Authorization": f"Bearer {token('a' if method == 'POST' else 'b')}"})
        answer = connection.getresponse()
        text = answer.read()
        test(f"{method}: {answer.status}", answer.status == (200 if method == "HEAD" else 405) and (len(text) > 0) == (size > 0))
    connection.close()


def neutral(server):
    """What the client sends does not get into the fetch."""
    server.keys.answer = whole(keys("f"))
    later(server, PAUSE)
    before = len(server.keys.asked)
    headers = {"Range": "bytes=0-3", "Accept-Encoding": "gzip", "If-None-Match": '"x"', "Cookie": "a=b", "X-From": "evil", "Host": "evil", "Expect": "x"}
    status, _ = server.get("/?from=evil", token("f"), **headers)
    asked = server.keys.asked[before:]
    test(f"a client with odd headers: {status} {asked}", status == 206 and len(asked) == 1)
    lines = asked[0].split("\r\n") if asked else []
    names = {line.partition(":")[0] for line in lines[1:] if line}
    test(f"what is asked: {lines}", lines[:1] == ["GET /jwks?of= HTTP/1.0"] and names <= {"X-Host", "X-Map", "X-Uri", "Host", "Connection"} and "evil" not in "".join(lines))


def cuts(server):
    """If the request ends that began a fetch, another one begins it anew."""
    server.keys.answer = whole(keys("a"))
    later(server, OLD)
    eventually(lambda: server.get("/backend/warm", token("a"))[0] == 200)
    for what, answer in (("a hang", hang), ("an answer that comes late", late(1, whole(keys("h"))))):
        server.keys.answer = answer
        later(server, OLD)
        before = len(server.keys.asked)
        client = socket.create_connection(("127.0.0.1", server.port))
        client.sendall(f"GET /backend/slow HTTP/1.1\r\nHost: x\r\nAuthorization: Bearer {token('a')}\r\n\r\n".encode())
        test(f"{what}: it begins", eventually(lambda: len(server.keys.asked) == before + 1))
        got = []
        threads = [threading.Thread(target=lambda: got.append(server.get("/backend/other", token("b"))[0])) for _ in range(5)]
        for thread in threads:
            thread.start()
        time.sleep(0.3)
        server.keys.answer = whole(keys("ab"))
        client.close()
        for thread in threads:
            thread.join()
        test(f"{what}: {got} with {len(server.keys.asked) - before} fetches", got == [200] * 5 and len(server.keys.asked) == before + 2)
        server.keys.answer = whole(keys("a"))
        later(server, PAUSE)
        server.get("/backend/other", token("c"))
    # a page, one part of which is cut off while another one waits for keys that it fetches itself, or that another request fetches
    server.write("root/parts", f'<!--#include virtual="/backend/part" --><!--#include virtual="/part?t={token("b")}" -->\n')
    for is_own in (True, False):
        server.keys.answer = late(1, whole(keys("a")))
        later(server, PAUSE)
        before, got = len(server.keys.asked), []
        other = threading.Thread(target=lambda: got.append(server.get("/gated", token("b"))[0]))
        if not is_own:
            other.start()
            eventually(lambda: len(server.keys.asked) == before + 1)
        client = socket.create_connection(("127.0.0.1", server.port))
        client.sendall(f"GET /parts HTTP/1.1\r\nHost: x\r\nAuthorization: Bearer {token('a')}\r\n\r\n".encode())
        test("the part waits", eventually(lambda: len(server.keys.asked) == before + 1) and server.get("/", token("a"))[0] == 200)
        time.sleep(0.2)
        if is_own:
            other.start()
            time.sleep(0.2)
        client.close()
        other.join()
        test(f"after a page that ended, own {is_own}: {got}", got == [401] and len(server.keys.asked) == before + 1 + is_own)
    # a client that does not wait for its answer
    for _ in range(20):
        server.keys.answer = late(0.05, whole(keys("a")))
        later(server, PAUSE)
        client = socket.create_connection(("127.0.0.1", server.port))
        client.sendall(f"GET / HTTP/1.1\r\nHost: x\r\nAuthorization: Bearer {token('f')}\r\n\r\n".encode())
        client.close()
    server.keys.answer = whole(keys("a"))
    time.sleep(0.2)
    later(server, PAUSE)
    test("after clients that went away", server.get("/", token("b"))[0] == 401 and server.get("/", token("a"))[0] == 200)


def cut_often(server):
    """Requests that are cut off with the fetch that they began have an old set fetched once in a second."""
    server.keys.answer = whole(keys("a"))
    later(server, OLD)
    eventually(lambda: server.get("/backend/warm", token("a"))[0] == 200)
    server.keys.answer = hang
    later(server, OLD)
    before = len(server.keys.asked)
    for wanted in (1, 1, 1, 1, 2, 2):
        if wanted > len(server.keys.asked) - before > 0:
            later(server, 1)
        passed_on = len(server.backend.asked)
        with socket.create_connection(("127.0.0.1", server.port)) as client:
            client.sendall(f"GET /backend/slow HTTP/1.1\r\nHost: x\r\nAuthorization: Bearer {token('a')}\r\n\r\n".encode())
            eventually(lambda: len(server.backend.asked) > passed_on and len(server.keys.asked) >= before + wanted)
        # nginx sees that the client went away
        time.sleep(0.1)
        test(f"{len(server.keys.asked) - before} fetches, wanted {wanted}", len(server.keys.asked) - before == wanted)
    server.keys.answer = whole(keys("a"))
    later(server, PAUSE)
    test("the next one is whole", eventually(lambda: server.get("/", token("b"))[0] == 401) and server.get("/", token("a"))[0] == 200)


def crowded(server):
    """A quarter of a worker's connections may wait for keys, and requests that come after them are answered with 503 at once."""
    done = threading.Event()
    server.keys.answer = lambda connection: done.wait(60) and whole(keys("a"))(connection)
    asked = f"GET /held HTTP/1.1\r\nHost: x\r\nConnection: close\r\nAuthorization: Bearer {token('a')}\r\n\r\n".encode()
    with contextlib.ExitStack() as opened:
        clients = [opened.enter_context(socket.create_connection(("127.0.0.1", server.port), 60)) for _ in range(CONNECTIONS // 4 + 12)]
        for client in clients:
            client.sendall(asked)

        def answered():
            return select.select(clients, [], [], 0)[0]

        test(f"{len(answered())} are answered", eventually(lambda: len(answered()) >= 12))
        got = {client.recv(65536)[9:12] for client in answered()}
        test(f"other tokens are verified meanwhile, {got}", got == {b"503"} and server.get("/", token("a"))[0] == 200)
        done.set()
        got = [client.recv(65536)[9:12] for client in clients]
    test(f"those that waited: {set(got)}", got.count(b"200") == CONNECTIONS // 4)
    test("it is reported", f"{CONNECTIONS // 4} requests wait for keys" in server.read("error.log"))


def given_up(server):
    """A fetch that takes longer than a minute is given up when the next request comes."""
    done = threading.Event()

    def drip(connection):
        connection.sendall(head(100000))
        while not done.wait(0.2):
            connection.sendall(b" ")

    server.keys.answer = whole(keys("a"))
    later(server, PAUSE)
    server.get("/", token("b"))
    server.keys.answer = drip
    later(server, PAUSE)
    before = len(server.keys.asked)
    got = []
    thread = threading.Thread(target=lambda: got.append(server.get("/", token("b"))[0]))
    thread.start()
    test("a fetch that does not end", eventually(lambda: len(server.keys.asked) == before + 1))
    later(server, LIMIT - 1)
    test("which is waited for", server.get("/", token("a"))[0] == 200 and not got)
    later(server, 1)
    test("but not longer than a minute", server.get("/", token("a"))[0] == 200 and eventually(lambda: got == [503]))
    server.keys.answer = whole(keys("b"))
    later(server, PAUSE)
    asks(server, "another fetch", {"b": 200, "a": 401}, 1)
    done.set()
    thread.join()
    test("what came too late is not used", eventually(lambda: server.get("/", token("b"))[0] == 200))


def never(server):
    """Without any set the answer is 503, and each second a request tries again."""
    status, headers = server.get("/of_none", token("a"))
    test(f"no set: {status} {headers['X-Status']}", status == 503 and headers["X-Status"] == "No verifier")
    test("no set, and no token", server.get("/of_none")[0] == 401)
    server.write("set.json", "{")
    test("a broken set", server.get("/of_file", token("a"))[0] == 503)
    server.write("set.json", {"keys": keys("a")})
    test("too early", server.get("/of_file", token("a"))[0] == 503)
    later(server, 1)
    test("a second later", server.get("/of_file", token("a"))[0] == 200)


def sources(server):
    """Keys come from files, and from each kind of location."""
    asks(server, "two files", {"a": 200, "b": 200, "c": 401, "a!": 401, "b!": 401}, 0, "/files")
    server.keys.answer = whole(keys("c"))
    asks(server, "a file and an uri", {"g": 200}, 1, "/both")
    asks(server, "the uri", {"c": 200, "g": 200, "a": 401, "g!": 401, "c!": 401}, 0, "/both")
    server.keys.answer = whole([oct_key("g", SECRETS["h"]), *keys("b")])
    later(server, PAUSE)
    asks(server, "a key of the file and of the uri is that of the file", {"b": 200, "g": 200, "g!": 401}, 1, "/both")
    server.keys.answer = whole(keys("a"))
    for path in ("/of_store", "/of_second", "/of_text", "/below"):
        asks(server, path, {"a": 200, "a!": 401}, 1 if path in ("/of_store", "/below") else 0, path)
    server.keys.answer = whole(keys("b"))
    later(server, PAUSE)
    asks(server, "a stored answer, which nginx sends from a file", {"b": 401, "a": 200}, 0, "/of_store")


def joined(server):
    """Two files and a fetched set are one set: the first key of a kid counts, in the order of the directives, and one verifier decides."""
    server.keys.answer = whole([oct_key("a", SECRETS["h"]), *keys("c")])
    later(server, PAUSE)
    asks(server, "the files before the first set", {"c!": 200}, 1, "/joined")
    test("the set comes between the files", eventually(lambda: server.get("/joined", token("c"))[0] == 200))
    asks(server, "the first key of each kid", {"a": 200, "a!": 401, "b": 200, "b!": 401, "c": 200, "c!": 401, "d": 401}, 0, "/joined")
    calls = {kid: server.ask("/joined", token(kid[0], SECRETS["h"] if kid.endswith("!") else None, sub="once")) for kid in ("a", "b", "c", "c!", "d")}
    test(f"one verifier for a token: {calls}", calls == {"a": (200, 1), "b": (200, 1), "c": (200, 1), "c!": (401, 1), "d": (401, 1)})
    for name, answer in (("of another family", curve_keys(1)), ("of an encrypting key", [{**keys("d")[0], "use": "enc"}]), ("without a key", [])):
        server.keys.answer = whole(answer)
        later(server, PAUSE)
        asks(server, f"a set {name} next to files", {"d": 503, "c": 200, "c!": 401, "a": 200, "a!": 401, "b": 200}, 1, "/joined")
    server.keys.answer = whole(keys("d"))
    later(server, PAUSE)
    asks(server, "a set without the kids of files", {"d": 200, "c": 401, "c!": 200, "a": 200, "a!": 401, "b": 200}, 1, "/joined")


def bound(server):
    """Keys that are of an issuer verify its tokens alone, whatever their kid is."""

    def tells(name, wanted, fetches, path, kid, issuer, secret=None, **claims):
        before = len(server.keys.asked), len(server.others.asked)
        status, headers = server.get(path, token(kid, SECRETS[secret or kid], iss=issuer, **claims))
        got = status, headers["X-Status"]

        def asked():
            return len(server.keys.asked) - before[0], len(server.others.asked) - before[1]

        eventually(lambda: sum(asked()) >= sum(fetches))
        test(f"{name}: {got}, fetches {asked()}, wanted {wanted} {fetches}", got == wanted and asked() == fetches)

    accepted, other_signature, other_issuer, no_key = (200, "OK"), (401, "InvalidSignature"), (401, "InvalidIssuer"), (401, "NoKey")
    no_text = 401, "Invalid format for claim: iss"
    # of the refusals by both, that of the later test
    for name, wanted, *given in (
        ("a set", accepted, "a", "a.example"),
        ("a single key", accepted, "b", "b.example"),
        ("a single key by a kid of the set", accepted, "a", "b.example", "b"),
        ("the key of one in the name of the other", other_issuer, "a", "b.example"),
        ("the single key in the name of the other", other_issuer, "b", "a.example"),
        ("the single key in the name of the other, by its kid", other_issuer, "a", "a.example", "b"),
        ("neither's key", other_signature, "a", "a.example", "h"),
        ("neither's key, in the name of the other", other_signature, "a", "b.example", "h"),
        ("neither's key by a kid of none", other_signature, "c", "a.example"),
        ("another name", other_issuer, "a", "c.example"),
        ("another name, by the single key", other_issuer, "b", "c.example"),
        ("another name, signed by nobody", other_signature, "a", "c.example", "h"),
        ("a part of its name", other_issuer, "a", "a.exampl"),
        ("its name in capitals", other_issuer, "a", "A.example"),
        ("an empty name", other_issuer, "a", ""),
        ("a list of its name", no_text, "a", ["a.example"]),
        ("a list of both names", no_text, "a", ["a.example", "b.example"]),
        ("a list of both names, by the single key", no_text, "b", ["b.example", "a.example"]),
        ("a list of the other name", other_issuer, "a", ["b.example"]),
    ):
        tells(f"files, {name}", wanted, (0, 0), "/bound_files", *given)
    unnamed(server)
    calls = [server.ask("/bound_files", token(kid, iss=issuer, sub="once")) for kid, issuer in (("a", "a.example"), ("b", "b.example"), ("a", "b.example"), ("a", "c.example"))]
    test(f"one verifier for a token: {calls}", calls == [(200, 1), (200, 1), (401, 1), (401, 1)])
    got = [server.get(path, token("a", iss=["a.example", "x"]))[1]["X-Test"] for path in ("/bound_files", "/named")]
    test(f"the test that a list fails: {got}", got == ["FurtherRulesHold", None])
    test("a list as issuer without iss=", server.get("/named", token("a", iss=["x", "a.example"]))[0] == 200)
    tells("files, an expired token of the second", (401, "ExpiredSignature"), (0, 0), "/bound_files", "b", "b.example", exp=NOW - 5)
    # the first of them answers later
    server.keys.answer, server.others.answer = late(0.3, whole(keys("a"))), whole(keys("b"))
    tells("the first token", accepted, (1, 1), "/bound", "b", "b.example")
    test("the other set comes too", eventually(lambda: server.get("/bound", token("a", iss="a.example"))[0] == 200))
    tells("the other in its name", no_key, (0, 0), "/bound", "a", "b.example")
    tells("a file next to them", accepted, (0, 0), "/bound", "g", "g.example")
    tells("a kid of none, too early", no_key, (0, 0), "/bound", "c", "a.example")
    # a new key has a kid that the other issuer has too
    server.keys.answer, server.others.answer = whole(keys("a")), whole([oct_key("a", SECRETS["c"]), *keys("b")])
    tells("a new key by a kid of the other, too early", no_key, (0, 0), "/bound", "a", "b.example", "c")
    later(server, PAUSE)
    tells("a new key by a kid of the other", accepted, (0, 1), "/bound", "a", "b.example", "c")
    tells("that key in the name of the other", other_issuer, (0, 0), "/bound", "a", "a.example", "c")
    tells("a kid that the other alone has", no_key, (1, 0), "/bound", "b", "a.example")
    tells("that kid in its name", accepted, (0, 0), "/bound", "b", "b.example")
    tells("the other's key of that kid", accepted, (0, 0), "/bound", "a", "a.example")
    tells("neither's key of that kid", other_signature, (0, 0), "/bound", "a", "a.example", "h")
    # one of them answers late, while fetches from the other fail
    done, got = threading.Event(), []

    def drip(connection):
        connection.sendall(head())
        while not done.wait(0.2):
            connection.sendall(b" ")
        connection.sendall(json.dumps({"keys": keys("af")}).encode())

    server.keys.answer, server.others.answer = drip, close
    later(server, PAUSE)
    before = len(server.keys.asked)
    thread = threading.Thread(target=lambda: got.append(server.get("/bound", token("f", iss="a.example"))[0]))
    thread.start()
    test("a fetch that takes long", eventually(lambda: len(server.keys.asked) == before + 1))
    for _ in range(4):
        tells("a kid of none of the other", (503, "NoKey"), (0, 1), "/bound", "d", "b.example")
        later(server, PAUSE)
    test("one issuer's tokens wait for its keys alone", not got)
    done.set()
    thread.join()
    test(f"a token of the late one: {got}", got == [200])
    server.keys.answer, server.others.answer = whole(keys("a")), whole([oct_key("a", SECRETS["c"]), *keys("b")])
    later(server, PAUSE)
    tells("the keys from before, of one", no_key, (1, 0), "/bound", "d", "a.example")
    tells("and of the other", no_key, (0, 1), "/bound", "d", "b.example")
    # one of them is down
    server.others.answer = close
    later(server, PAUSE)
    tells("a kid of none, and a fetch that fails", (503, "NoKey"), (0, 1), "/bound", "c", "b.example")
    tells("a kid of none, and a fetch of the other that succeeds", no_key, (1, 0), "/bound", "c", "a.example")
    tells("a token of the other", accepted, (0, 0), "/bound", "a", "a.example")
    tells("an expired one of the other", (401, "ExpiredSignature"), (0, 0), "/bound", "a", "a.example", exp=NOW - 5)
    server.others.answer = whole(keys("b"))
    later(server, PAUSE)
    tells("a kid of none, and a fetch that succeeds", no_key, (0, 1), "/bound", "c", "b.example")
    tells("a key that was removed", no_key, (0, 0), "/bound", "a", "b.example", "c")
    # the address of one gives the set of the other, whose keys then sign in the name of both, and in no third one
    server.others.answer = whole(keys("a"))
    later(server, PAUSE)
    tells("a kid of none, and a set of the other's", no_key, (0, 1), "/bound", "c", "b.example")
    tells("a key of the other's set, in the name of this one", accepted, (0, 0), "/bound", "a", "b.example")
    tells("a key of the other's set, in its name", accepted, (0, 0), "/bound", "a", "a.example")
    tells("a key of the set before it", no_key, (0, 0), "/bound", "b", "b.example")
    tells("a key of the other's set, in the name of a file", no_key, (0, 0), "/bound", "a", "g.example")
    for issuer, wanted in (("c.example", other_issuer), ("", other_issuer), ("a.example b.example", other_issuer), (["a.example"], no_text)):
        tells(f"a key of the other's set, in the name {issuer}", wanted, (0, 0), "/bound", "a", issuer)
    # a file and a fetched set of one issuer are one set
    server.keys.answer, server.others.answer = whole(keys("a")), whole(keys("bcd"))
    tells("a file and a set of its issuer, before the set", accepted, (1, 1), "/bound_both", "c", "b.example", "h")
    test("the set comes too", eventually(lambda: server.get("/bound_both", token("d", iss="b.example"))[0] == 200))
    tells("the first key of the kid", accepted, (0, 0), "/bound_both", "c", "b.example", "h")
    tells("the second key of the kid", other_signature, (0, 0), "/bound_both", "c", "b.example")
    later(server, PAUSE)
    tells("a kid of that set in the name of the other", no_key, (1, 0), "/bound_both", "d", "a.example")
    server.others.answer = whole(keys("bcde"))
    tells("a new kid", accepted, (0, 1), "/bound_both", "e", "b.example")
    tells("a key of the other, in this name", no_key, (0, 0), "/bound_both", "a", "b.example")
    # a single key refuses each token of the other issuer by its signature, also one with a key that the set does not have yet
    server.keys.answer = whole(keys("a"))
    tells("a single key beside a set, before the set", accepted, (1, 0), "/bound_single", "b", "b.example")
    test("the set comes too", eventually(lambda: server.get("/bound_single", token("a", iss="a.example"))[0] == 200))
    tells("a kid of none beside a single key, too early", no_key, (0, 0), "/bound_single", "c", "a.example")
    server.keys.answer = whole(keys("c"))
    later(server, PAUSE)
    tells("a new kid beside a single key", accepted, (1, 0), "/bound_single", "c", "a.example")
    tells("the single key after it", accepted, (0, 0), "/bound_single", "b", "b.example")
    tells("the single key in the name of the other", no_key, (0, 0), "/bound_single", "b", "a.example")
    tells("a key before it", no_key, (0, 0), "/bound_single", "a", "a.example")
    # before there is any set
    server.keys.answer = server.others.answer = close
    for name, issuer in (("another name", "c.example"), ("the name of one", "a.example")):
        failed = server.read("error.log").count("auth_jwt: no keys from")
        tells(f"{name}, before the first set", (503, "No verifier"), (1, 1), "/bound_first", "a", issuer)
        test(f"{name}, both fetches failed", eventually(lambda: server.read("error.log").count("auth_jwt: no keys from") == failed + 2))
        later(server, PAUSE)
    server.others.answer = whole(keys("b"))
    tells("the first set of one", accepted, (1, 1), "/bound_first", "b", "b.example")
    tells("the other, before its set", (503, "No verifier"), (0, 0), "/bound_first", "a", "a.example")
    tells("another name, beside one set", no_key, (0, 0), "/bound_first", "a", "c.example")
    tells("an expired token of the one", (401, "ExpiredSignature"), (0, 0), "/bound_first", "b", "b.example", exp=NOW - 5)
    server.keys.answer = whole(keys("a"))
    later(server, PAUSE)
    tells("the first set of the other", accepted, (1, 0), "/bound_first", "a", "a.example")


def unnamed(server):
    """A token that names no issuer, or of which nothing can be read, is refused by a verifier."""
    good = token("a", iss="a.example")
    head, payload, signature = good.split(".")
    for name, text, wanted in (
        ("no iss", token("a"), "Missing required claim: iss"),
        ("an iss of null", token("a", iss=None), "Missing required claim: iss"),
        ("an iss of a number", token("a", iss=7), "Missing required claim: iss"),
        ("a payload that is no base64url", f"{head}.{payload}!.{signature}", "InvalidSignature"),
        ("a payload that is no JSON", made.signed({"alg": "HS256", "kid": "a"}, b"{", SECRETS["a"], "sha256").decode(), "JSON error"),
        ("a payload that is no object", made.signed({"alg": "HS256", "kid": "a"}, [1], SECRETS["a"], "sha256").decode(), "JSON error"),
        ("one dot", f"{head}.{payload}", "InvalidToken"),
        ("a text", "text", "InvalidToken"),
    ):
        status, headers = server.get("/bound_files", text)
        test(f"{name}: {status} {headers['X-Status']}, wanted {wanted}", (status, headers["X-Status"]) == (401, wanted))


def protocols(server):
    """A set that is too long ends no worker, by whichever protocol it comes, and the last good set decides."""
    many = keys("b") + [oct_key(f"{n}", b"x" * 80) for n in range(10000)]
    for path, answer in (("/of_memcached", memcached), ("/of_grpc", http2)):
        server.keys.answer = answer(many)
        asks(server, f"{path}, a set of more than 1 MiB", {"a": 503}, 1, path)
        server.keys.answer = answer(keys("a"))
        later(server, 1)
        asks(server, f"{path}, a set", {"a": 200, "a!": 401}, 1, path)
        server.keys.answer = answer(many)
        later(server, PAUSE)
        asks(server, f"{path}, a set of more than 1 MiB after it", {"b": 503, "a": 200, "a!": 401}, 1, path)


def places(server):
    """A token is asked for in subrequests, next to other tests, and by a second issuer."""
    server.keys.answer = late(0.2, whole(keys("a")))
    later(server, PAUSE)
    for path, first in (("/gated", {"a": 200, "a!": 401, "b": 401}), ("/any", {"a": 200, "b": 401})):
        asks(server, path, first, 1, path)
    # a location that answers by return can't wait
    test("a return before the first set", server.get("/returned", token("a"))[0] == 500)
    test("a return after it", eventually(lambda: server.get("/returned", token("a"))[0] == 200))
    asks(server, "a return", {"a!": 401, "b": 401, "a": 200}, 0, "/returned")
    server.write("set.json", {"keys": keys("c")})
    test("the first issuer", server.get("/two", token("c"))[0] == 200)
    test("the second issuer", server.get("/two", token("a"))[0] == 200)
    test("neither", server.get("/two", token("b"))[0] == 401 and server.get("/two", token("a", SECRETS["c"]))[0] == 401)
    server.write("root/part", 'part of <!--#echo var="jwt_claim_sub" -->\n')
    server.write("root/page", "".join(f'<!--#include virtual="/part?t={it}" -->' for it in (token("a"), token("a", sub="ben"), token("b"))) + "end\n")
    got = together(5, lambda: server.fetch("/page")[2])
    test(f"parts of a page: {got[0]}", all("part of a\npart of ben\n" in it and it.endswith("end\n") and it.count("part of") == 2 for it in got))


def streams(port, headers, count):
    """Sends this many requests at once over one connection of HTTP/2 (RFC 9113), and returns how many have the status 200."""

    # literals without an index, of at most 126 bytes in the length's first byte (RFC 7541 sections 5.1 and 6.2.2)
    def text(value):
        size = len(value)
        return (bytes([size]) if size < 127 else bytes([127, size - 127 & 127 | 128, size - 127 >> 7])) + value

    block = b"".join(b"\0" + text(name.encode()) + text(value.encode()) for name, value in headers)
    ended, well = set(), 0
    with socket.create_connection(("127.0.0.1", port), 20) as client:
        client.sendall(b"PRI * HTTP/2.0\r\n\r\nSM\r\n\r\n" + frame(4, 0, 0) + b"".join(frame(1, 5, 2 * n + 1, block) for n in range(count)))
        with client.makefile("rb") as answer:
            while len(ended) < count:
                start = answer.read(9)
                kind, flags, stream = start[3], start[4], int.from_bytes(start[5:], "big")
                payload = answer.read(int.from_bytes(start[:3], "big"))
                # the status 200 is number 8 of the static table
                well += kind == 1 and payload[0] == 0x88
                if kind in (0, 1) and flags & 1 or kind == 3:
                    ended.add(stream)
    return well


def multiplexed(server):
    """The streams of one connection wait for one fetch, and the same URI of another server has other keys."""
    server.keys.answer = whole(keys("a"))
    later(server, PAUSE)
    server.get("/", token("b"))
    server.keys.answer = late(0.3, whole(keys("e")))
    before = len(server.keys.asked)
    server.write("root/stream", "served")
    headers = [(":method", "GET"), (":scheme", "http"), (":path", "/stream"), (":authority", "x"), ("authorization", f"Bearer {token('e')}")]
    well = streams(server.http2, headers, 8)
    test(f"HTTP/2: {well} of 8", well == 8 and len(server.keys.asked) == before + 1)
    test("the keys of one server are not those of another", server.get("/", token("e"))[0] == 401 and len(server.keys.asked) == before + 1)
    headers[-1] = ("authorization", f"Bearer {token('b')}")
    test("HTTP/2 and an unknown key", streams(server.http2, headers, 3) == 0)


ALL = (rotation, faults, odd, many_odd, waiting, neutral, cuts, cut_often, crowded, given_up, never, sources, joined, bound, protocols, places, multiplexed)


def run(module):
    with servers(module) as server:
        server.env["MALLOC_PERTURB_"] = "165"
        with started(server):
            for part in ALL:
                part(server)
    # with memory as fast as it is
    with servers(module) as server, started(server):
        large(server)


# nginx of two workers by the clock of the machine, which takes keys from a server that has a new one each few seconds
ROTATED = """
    auth_jwt rotated;
    auth_jwt_alg HS256;
    auth_jwt_key_request /keys;
    auth_jwt_key_cache 30s;
    location / {{ }}
    location /open {{ auth_jwt off; }}
    location = /keys {{ internal; proxy_pass http://127.0.0.1:{keys}/jwks; proxy_connect_timeout 1s; proxy_read_timeout 2s; }}
"""


class Rotation:
    """Rotates keys, sends tokens, and counts answers by what was sent. Key n is published with the one before it."""

    def __init__(self, server, served):
        self.server, self.served, self.at, self.since, self.done = server, served, 0, time.monotonic(), threading.Event()
        self.counts, self.slowest, self.last_refusal, self.lock = {}, {}, 0, threading.Lock()

    def secret(self, number):
        return f"the secret of the key {number}, of 32 bytes or more".encode()

    def token(self, kid, secret):
        return signed({"exp": int(time.time()) + 600, "sub": str(random.random())}, secret, kid=str(kid))

    def rotate(self, period):
        """Publishes a new key, at times after some faults of the server."""
        while not self.done.wait(period):
            number = self.at + 1
            good = whole([oct_key(str(it), self.secret(it)) for it in (number, number - 1)])
            fault = random.choice([None, None, hang, close, whole("<html>"), cut([]), whole([]), whole("{}", "500 Oops"), late(1, good)])
            if fault is not None:
                self.served.answer = fault
                self.done.wait(period / 2)
            self.served.answer = good
            self.at, self.since = number, time.monotonic()

    def send(self):
        connection = http.client.HTTPConnection("127.0.0.1", self.server.port, timeout=30)
        while not self.done.is_set():
            at, since = self.at, self.since
            kind = random.choice(["good", "good", "good", "before", "forged", "retired", "retired secret", "unknown", "garbage"])
            token = {
                "good": lambda: self.token(at, self.secret(at)),
                "before": lambda: self.token(max(at - 1, 0), self.secret(max(at - 1, 0))),
                "forged": lambda: self.token(at, b"forged" * 8),
                "retired": lambda: self.token(at - 3, self.secret(at - 3)),
                "retired secret": lambda: self.token(at, self.secret(at - 2)),
                "unknown": lambda: self.token(f"x{random.random()}", self.secret(at)),
                "garbage": lambda: "a.b.c",
            }[kind]()
            began = time.monotonic()
            connection.request("GET", "/", headers={"Authorization": f"Bearer {token}"})
            answer = connection.getresponse()
            answer.read()
            took = time.monotonic() - began
            if took > 4:
                print(f"{kind}: {answer.status} after {took:.2f} s, {time.monotonic() - self.since:.2f} s after the last rotation", flush=True)
            with self.lock:
                self.counts[kind, answer.status] = self.counts.get((kind, answer.status), 0) + 1
                self.slowest[kind] = max(self.slowest.get(kind, 0), took)
                if kind == "good" and answer.status != 200:
                    self.last_refusal = max(self.last_refusal, time.monotonic() - since)
        connection.close()


    def probe(self):
        """Asks for what needs no token, which tells how long a worker stands still for other reasons."""
        connection = http.client.HTTPConnection("127.0.0.1", self.server.port, timeout=60)
        while not self.done.wait(0.02):
            began = time.monotonic()
            connection.request("GET", "/open")
            connection.getresponse().read()
            with self.lock:
                self.slowest["no token is needed"] = max(self.slowest.get("no token is needed", 0), time.monotonic() - began)
        connection.close()


def run_rotation(module, seconds, period=20, clients=6):
    """nginx follows a server that rotates its keys, under load: no answer is 5xx, but 503 to a kid that could not be fetched, and no forged token is accepted."""
    with tempfile.TemporaryDirectory(prefix="nginx-jwt-") as work:
        served = KeyServer()
        server = Server(module, work, ROTATED.replace("{keys}", str(served.port)))
        server.write("root/index.html", "served\n")
        rotation = Rotation(server, served)
        served.answer = whole([oct_key("0", rotation.secret(0))])
        with started(server):
            memory = [resident(server)]
            threads = [threading.Thread(target=rotation.send) for _ in range(clients)]
            threads += [threading.Thread(target=rotation.probe) for _ in range(4)]
            threads.append(threading.Thread(target=rotation.rotate, args=(period,)))
            for thread in threads:
                thread.start()
            time.sleep(seconds)
            rotation.done.set()
            for thread in threads:
                thread.join()
            memory.append(resident(server))
        served.stop()
    counts = rotation.counts
    total = sum(counts.values())
    print(f"{total} requests in {seconds} s, {rotation.at} rotations, {len(served.asked)} fetches by two workers")
    print(f"answers: {dict(sorted(counts.items()))}")
    print(f"slowest: { {kind: round(it, 2) for kind, it in rotation.slowest.items()} }")
    print(f"memory of the workers, before and after: {memory} KiB")
    print(f"a token of the newest key was refused up to {rotation.last_refusal:.1f} s after it was published")
    test("no 5xx", not any(status >= 500 for kind, status in counts if status != 503 or kind == "garbage"))
    test("no forged token", all(kind in ("good", "before") for kind, status in counts if status == 200))
    test("tokens are accepted", counts.get(("good", 200), 0) > 0.5 * sum(it for (kind, _), it in counts.items() if kind == "good"))
    test("a new key is taken", rotation.last_refusal < 15)


def run_valgrind(module):
    """The same under valgrind, which is slower, so that what depends on time is left out."""
    with servers(module) as server:
        with under_valgrind(server):
            for part in (rotation, odd, neutral, cuts, cut_often, given_up, never, sources, joined, bound, protocols, places, multiplexed):
                part(server)
