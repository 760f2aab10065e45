"""Runs each sample of README.md unchanged, except for its ports, files, trusted certificates and algorithms.

A sample that fetches keys by https also runs against servers with a wrong certificate. A sample that passes requests to a service also gets
requests that name a user themselves.
"""
import collections
import contextlib
import http.client
import json
import os
import re
import signal
import socket
import ssl
import subprocess
import tempfile
import threading
import time

from harness import NOW, SECRET, TOP, Server, eventually, free_port, oct_key, part, signed, started, test
from key_server import KeyServer, close, head, whole

SECOND = SECRET[::-1]
THIRD = SECRET[1:] + SECRET[:1]
ISSUER, OTHER = "https://login.example", "https://other.example"
ISSUERS = {"iss": ISSUER}
BEARER = {"Authorization": "Bearer {}"}
# The name in each certificate, and whether the trusted authority signed it.
CERTIFICATES = {"right": ("login.example", True), "of another name": ("evil.example", True), "that signed itself": ("login.example", False)}


def samples():
    """Returns each sample with the heading, or the bold words, before it."""
    with open(f"{TOP}/packages/nginx/README.md", encoding="utf-8") as file:
        parts = re.split(r"```nginx\n(.*?)```", file.read(), flags=re.S)
    return [(re.findall(r"^## (.*)$|\*\*(.*?)\*\*", before, re.M)[-1], sample) for before, sample in zip(parts[::2], parts[1::2])]


def write_certificates(folder):
    """Writes the authority and each certificate, with its private key, to a file named after it."""
    words = ["openssl", "req", "-x509", "-newkey", "ec", "-pkeyopt", "ec_paramgen_curve:P-256", "-nodes", "-days", "2"]

    def write(name, host, *more):
        files = ["-keyout", f"{folder}/{name}.key", "-out", f"{folder}/{name}"]
        subprocess.run([*words, *files, "-subj", f"/CN={host}", "-addext", f"subjectAltName=DNS:{host}", *more], check=True, capture_output=True)

    write("authority", "authority.example")
    for name, (host, is_trusted) in CERTIFICATES.items():
        write(name, host, *(["-CA", f"{folder}/authority", "-CAkey", f"{folder}/authority.key"] if is_trusted else []))


def openssl(*words, given=None):
    return subprocess.run(["openssl", *words], input=given, check=True, capture_output=True).stdout


class KeyPair:
    """A private key of OpenSSL, which signs tokens with one algorithm, and its public key."""

    KINDS = {"RS256": ["RSA", "-pkeyopt", "rsa_keygen_bits:2048"], "ES256": ["EC", "-pkeyopt", "ec_paramgen_curve:P-256"], "EdDSA": ["ED25519"]}

    def __init__(self, folder, alg, kid):
        self.alg, self.kid, self.file = alg, kid, f"{folder}/{kid}.pem"
        openssl("genpkey", "-algorithm", *self.KINDS[alg], "-out", self.file)
        self.pem = openssl("pkey", "-in", self.file, "-pubout")
        self.der = openssl("pkey", "-in", self.file, "-pubout", "-outform", "DER")
        self.jwk = {"kid": kid, **{name: part(it) if isinstance(it, bytes) else it for name, it in self.members().items()}}

    def members(self):
        """Returns the members of the JSON Web Key, whose numbers are at the end of the DER."""
        if self.alg == "RS256":
            return {"kty": "RSA", "n": self.der[-261:-5], "e": self.der[-3:]}
        if self.alg == "ES256":
            return {"kty": "EC", "crv": "P-256", "x": self.der[-64:-32], "y": self.der[-32:]}
        return {"kty": "OKP", "crv": "Ed25519", "x": self.der[-32:]}

    def signature(self, message):
        if self.alg == "EdDSA":
            with tempfile.NamedTemporaryFile() as file:
                file.write(message)
                file.flush()
                return openssl("pkeyutl", "-sign", "-inkey", self.file, "-rawin", "-in", file.name)
        made = openssl("dgst", "-sha256", "-sign", self.file, given=message)
        if self.alg == "RS256":
            return made
        # the DER of two numbers (RFC 3279 section 2.2.3)
        numbers = made[4 : 4 + made[3]], made[6 + made[3] :]
        return b"".join(int.from_bytes(it, "big").to_bytes(32, "big") for it in numbers)

    def token(self, header=(), **claims):
        header = {"alg": self.alg, "kid": self.kid, **dict(header)}
        message = ".".join(part(json.dumps(it).encode()) for it in (header, {"exp": NOW + 3600, "sub": "ada", **claims}))
        return f"{message}.{part(self.signature(message.encode()))}"


# The published keys of the sample with several families, by algorithm.
PAIRS = {}


def context(folder, name):
    made = ssl.SSLContext(ssl.PROTOCOL_TLS_SERVER)
    made.load_cert_chain(f"{folder}/{name}", f"{folder}/{name}.key")
    return made


class TlsKeyServer(KeyServer):
    """A key server with TLS. A client gets this certificate if it asks for login.example (SNI), and else a certificate of another name."""

    def __init__(self, answer, folder, certificate):
        asked_for = context(folder, certificate)
        self.context = context(folder, "of another name")
        self.context.sni_callback = lambda connection, name, _: setattr(connection, "context", asked_for if name == "login.example" else self.context)
        super().__init__(answer)

    def handle(self, connection):
        with contextlib.suppress(OSError):
            super().handle(self.context.wrap_socket(connection, server_side=True))


class NameServer:
    """A DNS server on the loopback. It answers each query of an address with `address`, for a second (RFC 1035 section 4.1)."""

    def __init__(self):
        self.address, self.socket = "127.0.0.1", socket.socket(socket.AF_INET, socket.SOCK_DGRAM)
        self.socket.bind(("127.0.0.1", 0))
        self.port = self.socket.getsockname()[1]
        threading.Thread(target=self.serve, daemon=True).start()

    def serve(self):
        with self.socket:
            while True:
                query, client = self.socket.recvfrom(512)
                if not query:
                    return
                self.socket.sendto(self.answer(query), client)

    def answer(self, query):
        asks_for_address = query[-4:] == b"\0\1\0\1"
        address = b"\xc0\x0c\0\1\0\1\0\0\0\1\0\4" + socket.inet_aton(self.address)
        return query[:2] + b"\x81\x80\0\1\0" + bytes([asks_for_address]) + bytes(4) + query[12:] + address * asks_for_address

    def stop(self):
        self.socket.sendto(b"", ("127.0.0.1", self.port))


class Sample:
    """An nginx with one sample, the key server, and the service."""

    def __init__(self, module, work, certificates, sample, certificate="right", workers=2):
        self.module, self.certificates, self.text = module, certificates, sample
        self.keys = TlsKeyServer(whole([oct_key("a")]), certificates, certificate)
        self.backend, self.names, self.port = KeyServer(whole("served\n")), NameServer(), free_port()
        for old, new in (
            ("modules/ngx_http_jwt_module.so", os.path.abspath(module)),
            ("/etc/ssl/certs/ca-certificates.crt", f"{certificates}/authority"),
            ("listen 8080;", f"listen 127.0.0.1:{self.port}; {self.two_tokens()}"),
            ("resolver 10.0.0.2;", f"resolver 127.0.0.1:{self.names.port};"),
            ("https://$issuer/", f"https://$issuer:{self.keys.port}/"),
            ("/var/log/nginx", work),
            ("/var/cache/nginx/keys", f"{work}/store"),
            *([] if "EdDSA" in sample else [("RS256", "HS256")]),
        ):
            sample = sample.replace(old, new)
        if "auth_jwt " not in sample:
            sample += "location /api/ { auth_jwt api; auth_jwt_key_request /keys; auth_jwt_alg HS256; }"
        # the sample's addresses stay unchanged, since nginx finds these names in its own configuration
        groups = f"upstream login.example {{ server 127.0.0.1:{self.keys.port}; }} upstream backend {{ server 127.0.0.1:{self.backend.port}; }}\n"
        escaped, http_conf = (it.replace("{", "{{").replace("}", "}}") for it in (sample, groups))
        is_whole, is_of_http = "load_module" in sample, "server {" in sample
        self.server = Server(module, work, "" if is_of_http else escaped, workers, http_conf + (escaped if is_of_http and not is_whole else ""))
        if is_whole:
            paths = f"client_body_temp_path {work}/temp; proxy_temp_path {work}/temp; fastcgi_temp_path {work}/temp; uwsgi_temp_path {work}/temp; scgi_temp_path {work}/temp;"
            user = "user root;\n" if os.geteuid() == 0 else ""
            text = f"{user}daemon off;\npid {work}/nginx.pid;\nerror_log {work}/error.log info;\n" + sample.replace("http {", f"http {{ {paths} {groups}", 1)
            self.server.write("nginx.conf", text)
            self.server.write("access.log", "")
        if is_of_http:
            self.server.port = self.port
        published = [it.jwk for it in PAIRS.values()] if "EdDSA" in sample else [oct_key("a")]
        for name, keys in (("jwks", published), ("second", [oct_key("b", SECOND)]), ("old", [oct_key("b", SECOND)])):
            self.server.write(f"{name}.json", {"keys": keys})

    def two_tokens(self):
        """Returns a location that requires the variable of the sample's map for a token in a cookie, and then redirects to the sample's location."""
        found = re.search(r"^map \S+ (\$\w+)", self.text, re.M)
        return f"location = /two {{ auth_jwt two token=$cookie_two; auth_jwt_key_file jwks.json; auth_jwt_alg RS256; auth_jwt_require {found[1]}; try_files /none /admin/x; }}" if found else ""

    def status(self, path, token=None, **headers):
        return self.server.get(path, token, **headers)[0]

    def ask(self, method, path, headers):
        """Returns the status of a request with these header lines, also several with one name."""
        connection = http.client.HTTPConnection("127.0.0.1", self.server.port, timeout=20)
        connection.putrequest(method, path)
        for line in headers:
            connection.putheader(*line)
        connection.endheaders()
        answer = connection.getresponse()
        answer.read()
        connection.close()
        return answer.status

    def stop(self):
        for it in (self.keys, self.backend, self.names):
            it.stop()


@contextlib.contextmanager
def running(module, certificates, sample, **options):
    with tempfile.TemporaryDirectory(prefix="nginx-jwt-") as work:
        it = Sample(module, work, certificates, sample, **options)
        with started(it.server):
            yield it
        it.stop()


def token(secret=SECRET, kid="a", digest="sha256", alg="HS256", **claims):
    return signed({"exp": NOW + 3600, "sub": "ada", **claims}, secret, digest, kid=kid, alg=alg)


def unlike(text):
    """Returns values of a claim that are not this text, though a rule that is written loosely takes them for it."""
    texts = [text.upper(), text.title(), f"{text}s", f"x{text}", f"{text} ", f" {text}", f'"{text}"', f'"{text}', f'{text}"', f'x"{text}"', f"{text}\n", f"\n{text}", f"x\n{text}\nx"]
    return [*texts, f"{text}\0", "", "1", 1, True, None, [f'x"{text}'], [[text]], {text: 1}, {"x": text}]


def first(it):
    good = token(aud="api", **ISSUERS)
    got = [it.status("/api/x", given) for given in (good, token(aud="other", **ISSUERS), token(SECOND, aud="api", **ISSUERS), None)]
    test(f"README, the first sample: {got}", got == [200, 401, 401, 401])
    # nginx itself refuses a line of more than 8 KiB
    got = [it.status("/api/x", "x" * size) for size in (8000, 8192)]
    test(f"README, a long line: {got}", got == [401, 400])
    for names, name in (({"aud": it, **ISSUERS}, it) for it in unlike("api")):
        test(f"README, the audience {name!r}", it.status("/api/x", token(**names)) == 401)
    for name in unlike(ISSUERS["iss"]):
        test(f"README, the issuer {name!r}", it.status("/api/x", token(aud="api", iss=name)) == 401)
    test("README, one fetch", len(it.keys.asked) == 1 and it.keys.asked[0].startswith("GET /.well-known/jwks.json "))
    wanted = '401 "GET /api/x HTTP/1.1" "InvalidSignature" "-" "SignatureIsAccepted" "a"'
    test("README, the log", eventually(lambda: wanted in it.server.read("jwt.log") and '200 "GET /api/x HTTP/1.1" "OK" "ada" "-" "-"' in it.server.read("jwt.log")))


# Header lines of a key server. With each but the first, nginx would store the set for too long, or not at all.
STORING = ["", "Cache-Control: public, max-age=3600", "Cache-Control: no-cache", "Cache-Control: no-store, private", "Expires: Fri, 31 Dec 2100 23:59:59 GMT"]
STORING += ["Expires: Thu, 01 Jan 1970 00:00:00 GMT", "X-Accel-Expires: 3600", "X-Accel-Expires: 0", "Set-Cookie: a=b", "Vary: *"]


def stored(it):
    got = [it.status("/", given) for given in (token(), token(SECOND, "b"), token(SECOND), None)]
    test(f"README, a stored set and a file: {got}", got == [404, 404, 401, 401])
    with contextlib.ExitStack() as stack:
        # one worker, because each worker has its own set
        reloaded = stack.enter_context(running(it.module, it.certificates, it.text, workers=1))
        servers = {line: stack.enter_context(running(it.module, it.certificates, it.text, workers=1)) for line in STORING}
        for line, other in servers.items():
            other.keys.answer = whole([oct_key("a")], more=f"{line}\r\n" if line else "")
            test(f"README, a set with {line!r}", other.status("/", token()) == 404)
            other.keys.answer = whole([oct_key("c", THIRD)], more=f"{line}\r\n" if line else "")
        cases = token(THIRD, "c"), token(), token(SECOND, "b")
        test("README, a set before a reload", reloaded.status("/", token()) == 404)
        reloaded.keys.answer = whole([oct_key("c", THIRD)])
        time.sleep(2.5)
        reloaded.server.process.send_signal(signal.SIGHUP)
        time.sleep(1.5)
        got = [reloaded.status("/", given) for given in cases]
        test(f"README, a set after a reload: {got}", got == [404, 401, 404])
        # the pause after a fetch
        time.sleep(6.5)
        for line, other in servers.items():
            got = [other.status("/", given) for given in cases]
            test(f"README, a set with {line!r} in which a key replaced the other: {got}", got == [404, 401, 404])
            other.keys.answer = close
        # what is stored is old
        time.sleep(2.5)
        for other in servers.values():
            other.server.process.send_signal(signal.SIGHUP)
        time.sleep(1.5)
        for line, other in servers.items():
            got = [other.status("/", given) for given in cases]
            test(f"README, a reload while the server of the set with {line!r} is down: {got}", got == [404, 401, 404])


def renamed(it):
    with running(it.module, it.certificates, it.text, workers=1) as other:
        other.names.address = "127.0.0.2"
        got = other.status("/api/x", token())
        test(f"README, an address without a server: {got}", got == 503)
        other.names.address = "127.0.0.1"
        test("README, the next address", eventually(lambda: other.status("/api/x", token()) == 404))


# Values of a claim that meet auth_jwt_require, and values that do not.
MET = [False, None, [], {}, [0], "no", "false", " ", "0 ", "0.0", "-0", "00x", "０", 0.0, -0.0, 0.5, {"x": 0.5}]
UNMET = ["", "0", "00", "0" * 100, 0]


def rules(it):
    got = [it.status("/admin/x", given) for given in (token(role="admin"), token(role="user"), token(), None)]
    test(f"README, a role: {got}", got == [404, 403, 403, 401])
    for role in (*unlike("admin"), ["admin"]):
        got = it.status("/admin/x", token(role=role))
        test(f"README, the role {role!r}: {got}", got == 403)
    got = [it.status("/notes/x", token(**claims)) for claims in ({"role": "admin"}, {"role": "admin", "sub": ""}, {"role": "user"})]
    test(f"README, two values: {got}", got == [404, 403, 403])
    for value, wanted in [(it, 404) for it in MET] + [(it, 403) for it in UNMET]:
        got = it.status("/notes/x", token(role="admin", sub=value))
        test(f"README, a required claim {value!r}: {got}", got == wanted)
    got = [it.status("/two", token(role=of_header), Cookie=f"two={token(role=of_cookie)}") for of_cookie, of_header in (("admin", "admin"), ("admin", "user"), ("user", "admin"))]
    test(f"README, a role of another token of the request: {got}", got == [404, 403, 403])


def with_role(text):
    """Returns values of a claim that have this text: in a list, or as a word."""
    lists = [[text], ["user", text], [text, "user"], ['a"b\\', "", "é\n", text], [7, None, [text], {text: text}, text], [f"role {n}" for n in range(200)] + [text]]
    return [*lists, text, f"{text} user", f"user {text}", f"  {text}  ", f'"user" {text} \n']


def without_role(text):
    """Returns values of a claim that do not have it, though a rule that is written loosely finds it there."""
    words = [it for it in unlike(text) if it not in (text, f"{text} ", f" {text}")]
    words += [f"{text},user", f"{text}\tuser", f"{text}\u00a0user", f"user-{text}", f"{text}.x"]
    lists = [["user"], [], [text.upper()], [f"{text}s"], [f"{text} "], [f" {text}"], [f"{text} user"], [f'user","{text}'], [f'\\","{text}","'], ["x\\", f'y"{text}"'], [f"{text}\n"], [f"{text}\0"]]
    return [*words, *lists, [[text]], [{text: 1}, "user"], [{"roles": [text]}], {text: [text]}, {"roles": text}, json.dumps([text]), json.dumps({"roles": [text]})]


def roles(it):
    def refused_or_not(path, text, claims, more=()):
        wanted = [*((value, 404) for value in with_role(text)), *((value, 403) for value in without_role(text))]
        for value, status in wanted:
            got = it.status(path, token(**claims(value), **dict(more)))
            test(f"README, {path}, {str(claims(value))[:80]}: {got}", got == status)
        test(f"README, {path}, no claim", it.status(path, token(**dict(more))) == 403 and it.status(path) == 401)

    refused_or_not("/keycloak/x", "admin", lambda given: {"realm_access": {"roles": given, "verify_caller": True}})
    refused_or_not("/keycloak/x", "editor", lambda given: {"resource_access": {"account": {"roles": ["view"]}, "notes": {"roles": given}}, "realm_access": {"roles": ["user"]}})
    refused_or_not("/entra/app/x", "Notes.Admin", lambda given: {"roles": given})
    refused_or_not("/entra/user/x", "Notes.Write", lambda given: {"scp": given})
    refused_or_not("/cognito/x", "admin", lambda given: {"cognito:groups": given})
    refused_or_not("/auth0/x", "write:notes", lambda given: {"permissions": given}, {"scope": "openid write:notes"})
    refused_or_not("/auth0/x", "write:notes", lambda given: {"scope": given}, {"permissions": ["write:notes"]})
    has = {"roles": ["admin"]}
    for claims in (
        {"realm_access": ["admin"]},
        {"realm_access": [has]},
        {"realm_access": json.dumps(has)},
        {"realm_access": {"x": has}},
        {"realm_access": {"Roles": ["admin"]}},
        {"realm_access": {"roles ": ["admin"]}},
        {"realm_access": has["roles"] + [has]},
        {"Realm_access": has},
        {"realm_access.roles": ["admin"]},
        {"realm_access roles": ["admin"]},
        {"realm_access": None, **has},
        {"resource_access": has},
        {"resource_access": {"notes": {"roles": ["admin"]}}},
        {"resource_access": {"account": {"roles": ["editor"]}}},
        {"realm_access": {"roles": ["editor"]}},
    ):
        test(f"README, {claims}", it.status("/keycloak/x", token(**claims)) == 403)
    test("README, both of Keycloak", it.status("/keycloak/x", token(realm_access=has, resource_access={"notes": {"roles": ["editor"]}})) == 404)


def access_tokens(it):
    good = signed({"exp": NOW + 3600, "sub": "ada"}, typ="at+jwt")
    for typ in ("at+jwt", "AT+JWT", "application/at+jwt"):
        test(f"README, the type {typ}", it.status("/", signed({"exp": NOW + 3600}, typ=typ)) == 200)
    for typ in ("JWT", "", "at+jwts", "xat+jwt", "atjwt", "attjwt", "at+jwt ", '"at+jwt"', "at+jwt\n", "x\nat+jwt", "text/at+jwt", "application/application/at+jwt"):
        test(f"README, the type {typ!r}", it.status("/", signed({"exp": NOW + 3600}, typ=typ)) == 401)
    test("README, no type", it.status("/", token()) == 401)
    got = [it.status("/two", given, Cookie=f"two={good}") for given in (good, token())]
    test(f"README, a type of another token of the request: {got}", got == [200, 401])
    test("README, the token goes no further", it.status("/", good) == 200 and good not in it.backend.asked[-1])


def preflight(it):
    for method, given, wanted in (("OPTIONS", None, 200), *((it, None, 401) for it in ("GET", "HEAD", "POST", "OPTION", "OPTIONSX")), ("GET", token(), 200), ("DELETE", token(SECOND), 401)):
        got = it.ask(method, "/api/x", [("Authorization", f"Bearer {given}")] if given else [])
        test(f"README, {method}: {got}", got == wanted)
    for given in (None, token(SECOND), token()):
        got = it.ask("OPTIONS", "/api/x", FORGED + ([("Authorization", f"Bearer {given}")] if given else []))
        test(f"README, OPTIONS has no user, though the client names one: {got}", got == 200 and passed_on(it, "X-User") == [])


def issuers(it):
    login, other = ISSUER, OTHER
    lists = [login], [other], [login, other], [other, login]
    wanted = {
        "of the first": (token(iss=login), 200),
        "of the second": (token(SECOND, "b", iss=other), 200),
        "of no name": (token(), 401),
        "of another name": (token(iss="https://else.example"), 401),
        "of another secret": (token(SECOND, iss=login), 401),
        # the key of one with the name of the other
        "of the second in the name of the first": (token(SECOND, "b", iss=login), 401),
        "of the second by the kid of the first, in its name": (token(SECOND, iss=login), 401),
        "of the first in the name of the second": (token(iss=other), 401),
        "of the first by the kid of the second, in its name": (token(kid="b", iss=other), 401),
        # a list, by the key of each
        **{f"of the first in the names {names}": (token(iss=names), 401) for names in lists},
        **{f"of the second in the names {names}": (token(SECOND, "b", iss=names), 401) for names in lists},
        **{f"of {name!r}": (token(iss=name), 401) for name in unlike(login)},
        **{f"of {name!r}": (token(SECOND, "b", iss=name), 401) for name in unlike(other)},
    }
    for name, (given, status) in wanted.items():
        got = it.status("/api/x", given)
        test(f"README, two issuers, a token {name}: {got}", got == status)
    test("README, two issuers, no token", it.status("/api/x") == 401)


def families(it):
    cases = {}
    for alg, pair in PAIRS.items():
        good, stranger = pair.token(), KeyPair(it.certificates, alg, f"other-{alg}")
        head, payload, signature = good.split(".")
        cases[f"with {alg}"] = good, 200
        cases[f"with {alg}, again"] = good, 200
        cases[f"with {alg}, without its signature"] = f"{head}.{payload}.", 401
        cases[f"with {alg}, and another signature"] = f"{head}.{payload}.{stranger.token().split('.')[2]}", 401
        cases[f"with {alg}, and other claims"] = f"{head}.{pair.token(sub='root').split('.')[1]}.{signature}", 401
        cases[f"with {alg}, by a key that is not in the set"] = stranger.token(), 401
        cases[f"with {alg}, by a key that is not in the set, under the kid of one"] = stranger.token({"kid": pair.kid}), 401
        cases[f"with {alg}, without a kid"] = pair.token({"kid": None}), 401
        # algorithm confusion (RFC 8725 section 2.1)
        for name, secret in (("PEM", pair.pem), ("PEM without its last newline", pair.pem.rstrip()), ("DER", pair.der), ("JSON", json.dumps(pair.jwk).encode()), ("nothing", b"")):
            cases[f"with HS256, by the {name} of the key for {alg}"] = token(secret, pair.kid), 401
        for other in ("none", "HS256", "RS384", "PS256", "ES384", *PAIRS):
            if other != alg:
                cases[f"with {alg}, whose header says {other}"] = pair.token({"alg": other}), 401
        for other in PAIRS.values():
            if other is not pair:
                cases[f"with {alg}, under the kid of the key for {other.alg}"] = pair.token({"kid": other.kid}), 401
                cases[f"with {alg}, whose header is that of {other.alg}"] = pair.token({"kid": other.kid, "alg": other.alg}), 401
    for name, (given, wanted) in cases.items():
        got = it.status("/api/x", given)
        test(f"README, several families, a token {name}: {got}", got == wanted)
    test("README, several families, no token", it.status("/api/x") == 401)
    # a secret among them, and as the key of another issuer
    pairs = PAIRS.values()
    text = it.text.replace("auth_jwt_alg RS256", "auth_jwt_alg HS256 RS256")
    with running(it.module, it.certificates, text) as other:
        got = [other.status("/api/x", token(secret, pair.kid)) for pair in pairs for secret in (pair.pem, pair.der, b"")]
        test(f"README, several families and HS256, by the text of a key: {got}", got == [401] * 9)
        got = [other.status("/api/x", pair.token()) for pair in pairs]
        test(f"README, several families and HS256: {got}", got == [200] * 3)
    file = "auth_jwt_key_file jwks.json"
    with running(it.module, it.certificates, text.replace(file, f"{file} iss={ISSUER}; auth_jwt_key_file second.json iss={OTHER}")) as other:
        got = [other.status("/api/x", pair.token(iss=name)) for name in (ISSUER, OTHER) for pair in pairs]
        test(f"README, issuers with keys of several families: {got}", got == [200] * 3 + [401] * 3)
        got = [other.status("/api/x", token(SECOND, "b", iss=name)) for name in (OTHER, ISSUER)]
        test(f"README, issuers with keys of several families, a secret: {got}", got == [200, 401])
    fetched = it.text.replace(file, "auth_jwt_key_request /keys") + "location = /keys { internal; proxy_pass https://login.example/jwks; }\n"
    with running(it.module, it.certificates, fetched) as other:
        other.keys.answer = whole([oct_key("a"), {"kty": "unknown", "kid": "b"}, *(pair.jwk for pair in pairs)])
        got = [other.status("/api/x", pair.token()) for pair in pairs] + [other.status("/api/x", given) for given in (token(), *(token(pair.pem, pair.kid) for pair in pairs))]
        test(f"README, a fetched set with keys of several families: {got}", got == [200] * 3 + [401] * 4)


def cookie(it):
    good = token()
    got = [it.status("/app/x", Cookie=given) for given in (f"auth={good}", f"auth={token(SECOND)}", f'auth="{good}"', f"auths={good}", f"xauth={good}", "auth=")]
    test(f"README, a cookie: {got}", got == [200] + [401] * 5 and it.status("/app/x", good) == 401)
    for one, two in ((good, token(SECOND)), (token(SECOND), good), (good, good), (good, "")):
        twice = [("Cookie", f"auth={one}; auth={two}")], [("Cookie", f"auth={one}"), ("Cookie", f"auth={two}")], [("Cookie", f"auth={one}; x=y; AUTH={two}")]
        got = [it.ask("GET", "/app/x", headers) for headers in twice]
        test(f"README, two cookies: {got}", got == [400] * 3)


def websocket(it):
    for one, two in ((token(), token(SECOND)), (token(SECOND), token()), (token(), token()), (token(), "")):
        got = [it.status(f"/socket?{query}") for query in (f"token={one}&token={two}", f"token={one}&x=y&TOKEN={two}", f"%74oken={one}&token={two}")]
        test(f"README, two arguments: {got}", got == [400] * 3)

    def upgrade(connection):
        more = "Upgrade: websocket\r\n"
        connection.sendall(head(status="101 Switching Protocols", more=more).replace(b"Connection: close", b"Connection: upgrade"))
        connection.sendall(connection.recv(5))

    it.backend.answer = upgrade
    for given, wanted in ((token(), b"HTTP/1.1 101"), (token(SECOND), b"HTTP/1.1 401")):
        with socket.create_connection(("127.0.0.1", it.server.port), 20) as client:
            client.sendall(f"GET /socket?token={given} HTTP/1.1\r\nHost: x\r\nUpgrade: websocket\r\nConnection: Upgrade\r\n\r\n".encode())
            got = client.recv(65536)
            test(f"README, a WebSocket: {got[:12]}", got.startswith(wanted))
            if wanted.endswith(b"101"):
                client.sendall(b"hello")
                test("README, the WebSocket goes on", client.recv(5) == b"hello")
    test("README, its upgrade is passed on", "Upgrade: websocket\r\n" in it.backend.asked[-1])


def gate(it):
    wanted = {token(): (200, '"ada" "OK  "'), token(SECOND): (401, '"" "InvalidSignature SignatureIsAccepted a"'), None: (401, '"" "NoToken  "')}
    got = [it.status("/files/x", given) for given in wanted]
    test(f"README, a gate: {got}", got == [status for status, _ in wanted.values()])
    for status, words in wanted.values():
        test(f"README, the log of a gate has {words}", eventually(lambda: f'{status} "GET /files/x HTTP/1.1" {words}' in it.server.read("gate.log")))


def by(secret=SECRET, kid="a", digest="sha256", alg="HS256", **claims):
    """Returns a call that signs these claims, and others, for an access token."""
    return lambda **more: signed({"exp": NOW + 3600, "sub": "ada", **claims, **more}, secret, digest, kid=kid, alg=alg, typ="at+jwt")


def by_pair(alg):
    """Returns a call that signs these claims with the published key of this algorithm."""
    return lambda **claims: PAIRS[alg].token(**claims)


# Tests of a sample, and the path, header and tokens of a request that it lets pass. In the path and the header {} is the token.
Case = collections.namedtuple("Case", "tests path header tokens")
# By the words before the sample.
SAMPLES = {
    "Defaults.": Case(first, "/api/x", BEARER, [by(aud="api", **ISSUERS)]),
    "A reload": Case(stored, "/", BEARER, [by()]),
    "The issuer's address": Case(renamed, "/api/x", BEARER, [by()]),
    "Roles and scopes,": Case(roles, "/entra/app/x", BEARER, [by(roles="Notes.Admin")]),
    "A claim that is one text.": Case(rules, "/admin/x", BEARER, [by(role="admin")]),
    "Access tokens alone,": Case(access_tokens, "/", BEARER, [by()]),
    "A CORS preflight": Case(preflight, "/api/x", BEARER, [by()]),
    "Two issuers,": Case(issuers, "/api/x", BEARER, [by(**ISSUERS), by(SECOND, "b", iss=OTHER)]),
    "Keys of several families,": Case(families, "/api/x", BEARER, [by_pair(alg) for alg in KeyPair.KINDS]),
    "A cookie": Case(cookie, "/app/x", {"Cookie": "auth={}"}, [by()]),
    "A WebSocket": Case(websocket, "/socket?token={}", {}, [by()]),
    "A service that decides,": Case(gate, "/files/x", BEARER, [by()]),
}
# A user and an issuer that the client names itself.
FORGED = [(name, "root") for name in ("X-User", "x-user", "X-USER", "X-User", "X-Issuer", "x-issuer")]


def passed_on(it, name):
    """Returns the values of this header in the last request to the service."""
    return re.findall(rf"(?im)^{name}: (.*)\r$", "".join(it.backend.asked[-1:]))


def asked(it, case, given, more=()):
    """Returns the status of the sample's request with this token."""
    return it.ask("GET", case.path.format(given), [(name, value.format(given)) for name, value in case.header.items()] + list(more))


def identity(it, words, case):
    """The service gets the user and the issuer of the token, also if the client names others."""
    for issuer, sign in zip((ISSUER, OTHER), case.tokens):
        for sub, users in (("ada", ["ada"]), ("", [])):
            status = asked(it, case, sign(sub=sub), FORGED)
            got = passed_on(it, "X-User")
            test(f"README, {words} the client's own X-User: {status} {got}", status == 200 and got == users)
            if "X-Issuer" in it.text:
                got = passed_on(it, "X-Issuer")
                test(f"README, {words} the client's own X-Issuer: {got}", got == [issuer])


def wrong_certificates(module, certificates, words, sample, case):
    """The sample takes no keys from a server with a wrong certificate, and would without proxy_ssl_verify."""
    for name in list(CERTIFICATES)[1:]:
        with running(module, certificates, sample, certificate=name) as it:
            got = asked(it, case, case.tokens[0]())
            test(f"README, {words} keys with a certificate {name}: {got}", got == 503 and not it.keys.asked)
        with running(module, certificates, sample.replace("proxy_ssl_verify on;", ""), certificate=name) as it:
            got = asked(it, case, case.tokens[0]())
            test(f"README, {words} a certificate {name} that is not verified: {got}", got in (200, 404) and it.keys.asked)


def run(module):
    found = {"".join(words): sample for words, sample in samples()}
    test(f"the samples of README: {list(found)}", list(found) == list(SAMPLES) and len(found) == len(samples()))
    with tempfile.TemporaryDirectory(prefix="nginx-jwt-") as certificates:
        write_certificates(certificates)
        PAIRS.update((alg, KeyPair(certificates, alg, f"key-{alg}")) for alg in KeyPair.KINDS)
        for words, sample in found.items():
            case = SAMPLES[words]
            with running(module, certificates, sample) as it:
                got = [asked(it, case, sign()) for sign in case.tokens]
                test(f"README, {words} a token: {got}", set(got) <= {200, 404})
                for path in re.findall(r"location = (/\w+) ", sample):
                    test(f"README, {words} {path} from outside", it.status(path, case.tokens[0]()) == 404)
                if "http://backend" in sample:
                    identity(it, words, case)
                case.tests(it)
            if "proxy_pass https:" in sample:
                wrong_certificates(module, certificates, words, sample, case)
