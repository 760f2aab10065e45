"""Tests that odd items of a key set are skipped, and that the log has their reasons."""
import json
import re
import signal
import subprocess
import tempfile

from harness import MANY, PASS, TOP, Server, Watched, eventually, many_items, oct_key, signed, started, test, under_valgrind, warnings

# the curve's base point (FIPS 186-4, D.1.2.3), and the same with a last bit that is not on the curve
X = "axfR8uEsQkf4vOblY6RA8ncDfYEt6zOg9KE5RdiYwpY"
Y = "T-NC4v4af5uO5-tKfA-eFivOM1drMV7Oy7ZAaDe_UfU"
POINT = {"kty": "EC", "crv": "P-256", "x": X, "y": Y}
# RFC 7520 section 3.1
P521 = {
    "kty": "EC",
    "crv": "P-521",
    "x": "AHKZLLOsCOzz5cY97ewNUajB957y-C-U88c3v13nmGZx6sYl_oJXu9A5RkTKqjqvjyekWF-7ytDyRXYgCF5cj0Kt",
    "y": "AdymlHvOiLxXkEhayXQnNCvDX4h9htZaCJN34kfmC6pV5OhQHiraVySsUdaQkAgDPrwQrJmbnX9cwlGfP-HqHZR1",
}
# the reasons why jwt_keys_add skips an item, and items for each
ODD = [
    ("Invalid key", [7, "text", None, [], {**oct_key("a"), "kid": 7}, {**oct_key("a"), "x5t": 3}, {**oct_key("a"), "key_ops": "verify"}]),
    ("UnsupportedAlgorithm", [{}, {"kty": "AKP", "kid": "a"}, {"kty": "oct", "kid": "a"}, {**POINT, "crv": "secp256k1"}]),
    ("Base64 error", [{"kty": "oct", "kid": "a", "k": "a b"}, {**POINT, "x": X + "="}]),
    ("Key is not for signatures", [{**oct_key("a"), "use": "enc"}, {**POINT, "use": "enc"}]),
    ("Key fits no algorithm", [P521, {**POINT, "y": X}, {**oct_key("a"), "alg": "ES256"}, {**oct_key("a"), "alg": "A128KW"}, {"kty": "RSA", "kid": "a", "n": "AQAB", "e": "AQAB"}]),
    ("Secret is empty or all zeros", [oct_key("a", b""), oct_key("a", bytes(64))]),
    ("Secret is the text of a key", [oct_key("a", b"-----BEGIN PUBLIC KEY-----"), oct_key("a", json.dumps(POINT).encode())]),
]
ITEMS = [(item, reason) for reason, items in ODD for item in items]
# kinds of a row's refusal that nginx finds before it starts
UNUSABLE = {"BadKey", "NoUsableKey"}
# kinds whose text is another
TEXTS = {"Json": "JSON error", "Base64": "Base64 error"}
OTHER = b"a secret that no key of a set has"


def odd_rows():
    with open(f"{TOP}/crates/jwt_vectors/data/odd_sets.jsonl", encoding="utf-8") as file:
        return list(map(json.loads, file))


def as_header(value):
    """Returns a claim as a variable has it."""
    return value if isinstance(value, str) else json.dumps(value, separators=(",", ":"), ensure_ascii=False)


def row_answer(server, number, row, names):
    """Sends a row's token, and returns the status, the text of the result and the claims."""
    server.at(row["time"])
    status, headers = server.get(f"/row{number}", row["token"])
    return status, headers["X-Status"], [(headers[f"X-Claim-{at}"] or "").encode("latin-1").decode() for at in range(len(names))]


def check_rows(module, work, rows, names):
    """Runs each row in another location, with another file."""
    places = "".join(f"location /row{n} {{{{ auth_jwt r; auth_jwt_key_file {{work}}/row{n}.json; auth_jwt_alg {' '.join(row['algorithms'])}; }}}}\n" for n, row in enumerate(rows))
    places += "add_header X-Status $jwt_status always;\n" + "".join(f'add_header X-Claim-{at} "$row_claim_{at}" always;\n' for at in range(len(names)))
    server = Watched(module, work, places, "".join(f"auth_jwt_claim $row_claim_{at} {name};\n" for at, name in enumerate(names)))
    for number, row in enumerate(rows):
        server.write(f"row{number}.json", row["set"])
    with started(server):
        for number, row in enumerate(rows):
            claims = row["want"].get("ok")
            said = "OK" if claims is not None else TEXTS.get(row["want"]["err"], row["want"]["err"])
            wanted = 200 if claims is not None else 401, said, [as_header(claims[it]) if claims and it in claims else "" for it in names]
            got = row_answer(server, number, row, names)
            test(f"{row['id']}: {got}, wanted {wanted}", got == wanted)


def rows(module):
    """The rows of odd sets have the wanted answers; a set without a usable key stops the start."""
    given = odd_rows()
    served = [it for it in given if it["want"].get("err") not in UNUSABLE]
    test(f"{len(given)} rows, {len(served)} of them in locations", len(given) > len(served) > 20)
    names = sorted({name for row in served for name in row["want"].get("ok", {})})
    with tempfile.TemporaryDirectory(prefix="nginx-jwt-") as work:
        check_rows(module, work, served, names)
    with tempfile.TemporaryDirectory(prefix="nginx-jwt-") as work:
        server = Server(module, work, "")
        for row in given:
            if row["want"].get("err") in UNUSABLE:
                server.write("row.json", row["set"])
                status, text = server.check(f"auth_jwt r; auth_jwt_key_file {{work}}/row.json; auth_jwt_alg {' '.join(row['algorithms'])};")
                test(f"{row['id']}: {status} {text[-300:]}", status == 1 and re.search(r"\[emerg\] .*auth_jwt_(key_file|alg)\b", text))


SERVER = """
    add_header X-Status "$jwt_status" always;
    location /odd { auth_jwt r; auth_jwt_key_file {work}/odd.json; auth_jwt_alg HS256 ES256 RS256; }
    location /one { auth_jwt r; auth_jwt_key_file {work}/one.json; auth_jwt_alg HS256; }
    location /ten { auth_jwt r; auth_jwt_key_file {work}/ten.json; auth_jwt_alg HS256; }
    location /eleven { auth_jwt r; auth_jwt_key_file {work}/eleven.json; auth_jwt_alg HS256; }
    location /again { auth_jwt r; auth_jwt_key_file {work}/one.json; auth_jwt_alg HS256; auth_jwt_leeway 1s; }
    location /encrypts { auth_jwt r; auth_jwt_key_file {work}/encrypts.json; auth_jwt_alg HS256; }
    location /alg { auth_jwt r; auth_jwt_key_file {work}/alg.json; auth_jwt_alg HS256 HS384 HS512; }
    location /lone { auth_jwt r; auth_jwt_key_file {work}/lone.json; auth_jwt_alg HS256 HS384 HS512; }
    location /many { auth_jwt r; auth_jwt_key_file {work}/many.json; auth_jwt_alg HS256; }
""".replace("{ ", "{{ ").replace("; }", "; }}")


def write_sets(server):
    """Writes the files of SERVER."""
    odd = [item for item, _ in ITEMS]
    server.write("odd.json", {"keys": [*odd, oct_key("a"), {**oct_key("b", OTHER), "use": "sig", "alg": None}]})
    server.write("one.json", {"keys": [oct_key("b", OTHER), {"kty": "AKP", "kid": "a"}, oct_key("a")]})
    for name, count in (("ten", 10), ("eleven", 11)):
        server.write(f"{name}.json", {"keys": [odd[0]] * count + [oct_key("a")]})
    server.write("encrypts.json", {"keys": [{**oct_key("a", OTHER), "use": "enc"}, oct_key("a"), {**oct_key("b", OTHER), "use": "enc"}]})
    server.write("alg.json", {"keys": [{**oct_key("a"), "alg": "HS384"}, {**oct_key("b"), "alg": "RS256"}, {**oct_key("c", OTHER), "alg": "HS256"}]})
    server.write("lone.json", {**oct_key("a"), "alg": "HS384"})
    server.write("many.json", many_items(oct_key("a")))


def verdicts(server):
    """Odd items are as if they were not in the set, and a key with an alg verifies by that alone."""
    good, by_other = signed(PASS), signed(PASS, OTHER, kid="b")
    for path, name, token, wanted in (
        ("/odd", "a key after items of each reason", good, (200, "OK")),
        ("/odd", "another secret", signed(PASS, OTHER), (401, "InvalidSignature")),
        ("/odd", "the second key", by_other, (200, "OK")),
        ("/odd", "an empty secret", signed(PASS, b""), (401, "InvalidSignature")),
        ("/one", "a key after an odd one", good, (200, "OK")),
        ("/again", "a key after an odd one, by other rules", good, (200, "OK")),
        ("/ten", "a key after ten odd ones", good, (200, "OK")),
        ("/eleven", "a key after eleven odd ones", good, (200, "OK")),
        ("/many", f"a key after {MANY} odd ones", good, (200, "OK")),
        ("/many", f"the kid of {MANY} odd ones", signed(PASS, kid="7"), (401, "NoKey")),
        ("/encrypts", "a key after one of that kid that encrypts", good, (200, "OK")),
        ("/encrypts", "a key that encrypts, by the kid of another", signed(PASS, OTHER), (401, "InvalidSignature")),
        ("/encrypts", "a key that encrypts", by_other, (401, "NoKey")),
        ("/alg", "a key with an alg", signed(PASS, digest="sha384", alg="HS384"), (200, "OK")),
        ("/alg", "a key with another alg, HS256", good, (401, "InvalidAlgorithm")),
        ("/alg", "a key with another alg, HS512", signed(PASS, digest="sha512", alg="HS512"), (401, "InvalidAlgorithm")),
        ("/alg", "a secret with the alg RS256", signed(PASS, kid="b"), (401, "NoKey")),
        ("/alg", "the last of them", signed(PASS, OTHER, kid="c"), (200, "OK")),
        ("/lone", "a lone key with an alg", signed(PASS, digest="sha384", alg="HS384", kid="any"), (200, "OK")),
        ("/lone", "a lone key with another alg, HS256", good, (401, "InvalidAlgorithm")),
        ("/lone", "a lone key with another alg, HS512", signed(PASS, digest="sha512", alg="HS512"), (401, "InvalidAlgorithm")),
    ):
        status, headers = server.get(path, token)
        test(f"{path}, {name}: {status} {headers['X-Status']}", (status, headers["X-Status"]) == wanted)


def start_log(server):
    """The log has each of the first ten skipped keys with its place and its reason, and the number of the others; also after a reload."""

    def lines(name):
        place = f' "{server.work}/{name}.json": '
        return [it.removeprefix(place) for it in warnings(server, "file") if it.startswith(place)]

    def skipped(reasons):
        return [f"keys[{at}] is skipped: {reason}" for at, reason in reasons]

    unsupported, malformed = "UnsupportedAlgorithm", "Invalid key"
    wanted = {
        "odd": [*skipped(enumerate(reason for _, reason in ITEMS[:10])), f"also skipped: {len(ITEMS) - 10} of {len(ITEMS) + 2} keys"],
        # of two directives
        "one": skipped([(1, unsupported), (1, unsupported)]),
        "ten": skipped((at, malformed) for at in range(10)),
        "eleven": [*skipped((at, malformed) for at in range(10)), "also skipped: 1 of 12 keys"],
        "many": [*skipped((at, malformed) for at in range(10)), f"also skipped: {MANY - 10} of {MANY + 1} keys"],
        "encrypts": skipped([(0, "Key is not for signatures"), (2, "Key is not for signatures")]),
        "alg": skipped([(1, "Key fits no algorithm")]),
        "lone": [],
    }
    for name, said in wanted.items():
        test(f"skipped keys of {name}.json: {lines(name)}, wanted {said}", lines(name) == said)
    for item, reason in ITEMS:
        server.write("one.json", {"keys": [item, oct_key("a")]})
        server.write("error.log", "")
        subprocess.run(server.words("-t"), capture_output=True)
        test(f"{json.dumps(item)[:60]}: {lines('one')}", lines("one") == skipped([(0, reason)] * 2))


def reload(server):
    """A set with odd items takes the place of one without: nginx goes on with its keys."""
    server.write("one.json", {"keys": [{**oct_key("a"), "x5t": 3}, {**oct_key("c"), "kid": 7}, oct_key("new", OTHER)]})
    server.process.send_signal(signal.SIGHUP)
    test("the new key counts", eventually(lambda: server.get("/one", signed(PASS, OTHER, kid="new"))[0] == 200))
    test("and the old one does not", eventually(lambda: server.get("/one", signed(PASS))[0] == 401))


def refused_at_start(module):
    """A set without a usable key stops the start, and the error lists the reasons of the first ten items."""
    three = "HS256, HS384, HS512"
    refused = "No key fits the algorithms: "
    with tempfile.TemporaryDirectory(prefix="nginx-jwt-") as work:
        conf = "auth_jwt r; auth_jwt_key_file {work}/bad.json; auth_jwt_alg HS256;"
        server = Server(module, work, conf)
        sets = [
            ([], refused + "the set is empty in "),
            ([POINT | {"kid": "a"}], refused + "keys[0] is for ES256 in "),
            ([POINT], refused + "keys[0] is for ES256, without a kid in "),
            ([{**oct_key("a"), "kid": None}], refused + f"keys[0] is for {three}, without a kid in "),
            ([{**oct_key("a"), "kid": None}, POINT | {"kid": "a"}], refused + f"keys[0] is for {three}, without a kid; keys[1] is for ES256 in "),
            ([{**oct_key("a"), "alg": "HS512"}, 7, {"kty": "AKP"}], refused + "keys[0] is for HS512; keys[1] is skipped: Invalid key; keys[2] is skipped: UnsupportedAlgorithm in "),
            ([7] * 10, refused + "; ".join(f"keys[{at}] is skipped: Invalid key" for at in range(10)) + " in "),
            ([7] * 12, refused + "; ".join(f"keys[{at}] is skipped: Invalid key" for at in range(10)) + "; and 2 more in "),
            *(([item], refused + f"keys[0] is skipped: {reason} in ") for item, reason in ITEMS),
        ]
        for keys, said in sets:
            server.write("bad.json", {"keys": keys})
            status, text = server.check(conf)
            test(f"{json.dumps(keys)[:60]}: {status} {text[-400:]}", status == 1 and re.search(rf'\[emerg\] .*auth_jwt_key_file "{work}/bad.json": {re.escape(said)}', text))
        started_with = subprocess.run(server.words(), capture_output=True, text=True, timeout=60)
        test(f"nginx starts: {started_with.returncode}", started_with.returncode == 1 and refused in started_with.stderr)
        # a key that is not in a set is refused with its reason
        for item, reason in ITEMS:
            if isinstance(item, dict):
                server.write("bad.json", item)
                status, text = server.check(conf)
                test(f"alone, {json.dumps(item)[:60]}: {status} {text[-400:]}", status == 1 and f'bad.json": {reason}' in text)


def run(module):
    rows(module)
    refused_at_start(module)
    with tempfile.TemporaryDirectory(prefix="nginx-jwt-") as work:
        server = Server(module, work, SERVER)
        write_sets(server)
        with started(server):
            verdicts(server)
            start_log(server)
            reload(server)


def run_valgrind(module):
    with tempfile.TemporaryDirectory(prefix="nginx-jwt-") as work:
        server = Server(module, work, SERVER)
        write_sets(server)
        with under_valgrind(server):
            verdicts(server)
