"""Tests the types of the package in this checkout by mypy, which reads its sources and a program of a caller: of its lines, those alone that
are marked are errors. The last line counts."""
import os
import re
import subprocess
import sys
import tempfile

PACKAGE = os.path.dirname(os.path.dirname(os.path.abspath(__file__)))
# what ends in `# error` has to be one
CALLER = """import datetime

import jwtproved as jwt
from cryptography import x509
from cryptography.hazmat.primitives.asymmetric import ec, ed25519, rsa
from jwtproved.types import Options

keys = jwt.PyJWKSet.from_json(input())
token, secret = input(), input()
names: list[str] = input().split()
of_rsa, of_ec = rsa.generate_private_key(65537, 2048), ec.generate_private_key(ec.SECP256R1())
of_ed = ed25519.Ed25519PrivateKey.generate()
options: Options = {"verify_exp": False}
options["require"] = names

jwt.decode(token, keys, algorithms=["RS256"], audience="web", issuer=["a", "b"], options={"require": ["exp"]})
jwt.decode(token, secret, names, options=options, leeway=datetime.timedelta(seconds=5))
jwt.decode(token, secret, tuple(names), options=dict(strict_aud=True), audience=set(names))
jwt.decode(token, secret, {"HS256"}, options={"require": ("exp",)})
jwt.decode(token, secret, {name: 1 for name in names}.keys())
jwt.decode(token, keys["a"].key, ["RS256"])
jwt.decode(token, {"kty": "oct"}, ["HS256"])["sub"]
jwt.decode(token, of_rsa.public_key(), ["RS256"])
jwt.decode(token, of_ec.public_key(), ["ES256"])
jwt.decode(token, of_ed.public_key(), ["EdDSA"])
jwt.decode(token, options={"verify_signature": False})
jwt.encode({"sub": "a"}, secret).upper()
jwt.encode({}, of_rsa, "RS256", {"kid": "a"})
jwt.encode({}, of_ec, "ES256")
jwt.encode({}, of_ed, "EdDSA")
jwt.Verifier(keys, ("RS256",)).decode(token.encode(), now=5.5)
jwt.PyJWS().decode(token, secret, ["HS256"])
jwt.PyJWT({"verify_aud": False}).decode(token, secret, ["HS256"])
jwt.verify(b"message", b"signature", of_rsa.public_key(), "RS256").bit_length()
by_client = jwt.Verifier(jwt.PyJWKClient("https://login.example/keys"), ["RS256"], issuer="https://login.example")
jwt.ByIssuer(by_client, jwt.Verifier(secret, ["HS256"], issuer="a")).decode(token, now=5)["sub"]
by_client.raw_claims(token).upper()
part = jwt.signing_input({"a": 1.5}, "ES256")
jwt.encode_by_signature(part, b"signature", of_ec.public_key()).upper()

jwt.decode(token, secret, algorithms="HS256")  # error
jwt.decode(token, secret, b"HS256")  # error
jwt.decode(token, secret, [1])  # error
jwt.decode(token, secret, ["HS256"], options={"verfy_exp": True})  # error
jwt.decode(token, secret, ["HS256"], options={"verify_exp": 0})  # error
jwt.decode(token, secret, ["HS256"], options={"require": "exp"})  # error
jwt.decode(token, secret, ["HS256"], leeway="5")  # error
jwt.decode(token, None, ["HS256"])  # error
jwt.decode(token, of_rsa, ["RS256"])  # error
jwt.decode(token, x509.load_pem_x509_certificate(b""), ["RS256"])  # error
jwt.decode(None, secret, ["HS256"])  # error
jwt.decode(token, secret, ["HS256"], isuer="https://login.example")  # error
jwt.decode(token, secret, ["HS256"], anything=5)  # error
jwt.decode_complete(token, secret, ["HS256"], isuer="https://login.example")  # error
jwt.PyJWT().decode(token, secret, ["HS256"], leway=5)  # error
jwt.PyJWS().decode(token, secret, ["HS256"], audiance="web")  # error
jwt.encode({}, secret, algoritm="HS256")  # error
jwt.encode([], secret)  # error
jwt.encode({}, None)  # error
jwt.encode({}, secret).decode()  # error
jwt.decode_by_verdict(token, jwt.signed_part(token), True, "HS256")  # error
jwt.Verifier(keys, "RS256")  # error
jwt.Verifier(keys, ["RS256"], aud="a")  # error
jwt.Verifier(keys, ["RS256"], isuer="a")  # error
jwt.Verifier(keys, ["RS256"]).decode(token, datetime.datetime.now())  # error
jwt.PyJWS().decode(token, secret, "HS256")  # error
jwt.PyJWT({"verify": False})  # error
jwt.verify(b"message", b"signature", secret, ["HS256"])  # error
jwt.ByIssuer([by_client])  # error
jwt.encode_by_signature({"a": 1.5}, part, b"signature")  # error
jwt.verify(b"message", "signature", secret, "HS256")  # error
"""


def mypy(scratch, *words):
    command = ["mypy", "--strict", "--no-error-summary", "--cache-dir", f"{scratch}/cache", *words]
    return subprocess.run(command, cwd=scratch, env={**os.environ, "MYPYPATH": PACKAGE}, capture_output=True, text=True)


def main():
    with tempfile.TemporaryDirectory() as scratch:
        whole = mypy(scratch, f"{PACKAGE}/jwtproved")
        with open(f"{scratch}/caller.py", "w", encoding="utf-8") as file:
            file.write(CALLER)
        said = mypy(scratch, "caller.py").stdout
    lines = CALLER.split("\n")
    found = {int(it) for it in re.findall(r"^caller\.py:(\d+): error", said, re.M)}
    wanted = {number for number, line in enumerate(lines, 1) if line.endswith("# error")}
    for number in sorted(found ^ wanted):
        print(f"FAILED: {'an' if number in found else 'no'} error: {lines[number - 1]}")
    if whole.returncode:
        print(f"FAILED: {whole.stdout}{whole.stderr}")
    failed = len(found ^ wanted) + (whole.returncode != 0)
    print(f"{len([it for it in lines if 'jwt.' in it]) + 1 - failed} tests of types of jwtproved, {failed} failed")
    return failed > 0


sys.exit(main())
