"""Tests what the installed package signs with private keys by the package cryptography, which verifies it too, and PyJWT if it is there.
The last line counts."""
import base64
import concurrent.futures
import datetime
import hashlib
import json
import subprocess
import sys
import textwrap
import traceback

from counting import NOW, SECRET, at, finish, gives, outcome, part, peer, raises, test
from cryptography.hazmat.primitives import hashes, serialization
from cryptography.hazmat.primitives.asymmetric import ec, ed448, ed25519, padding, rsa, utils

import jwtproved as jwt
from jwtproved import _cryptography, algorithms

PEER = peer()

RSA = rsa.generate_private_key(65537, 2048)
P256, P384 = (ec.generate_private_key(curve()) for curve in (ec.SECP256R1, ec.SECP384R1))
ED = ed25519.Ed25519PrivateKey.generate()
KEYS = {
    **{f"{kind}{bits}": RSA for kind in ("RS", "PS") for bits in (256, 384, 512)},
    "ES256": P256,
    "ES384": P384,
    "EdDSA": ED,
}
CLAIMS = {"sub": "ada", "n": 2**64, "list": [True, None, "é", 0.75], "a": 1.5}


def pem(key, form=serialization.PrivateFormat.PKCS8, encryption=None):
    return key.private_bytes(serialization.Encoding.PEM, form, encryption or serialization.NoEncryption())


def public_pem(key):
    return key.public_key().public_bytes(serialization.Encoding.PEM, serialization.PublicFormat.SubjectPublicKeyInfo)


def whole(number, size=None):
    return part(number.to_bytes(size or (number.bit_length() + 7) // 8, "big"))


def jwk(key):
    """Returns the JSON Web Key of a private key, by the numbers that cryptography tells (RFC 7518 section 6, RFC 8037 section 2)."""
    if key is ED:
        raw = serialization.Encoding.Raw
        d = key.private_bytes(raw, serialization.PrivateFormat.Raw, serialization.NoEncryption())
        return {"kty": "OKP", "crv": "Ed25519", "x": part(key.public_key().public_bytes(raw, serialization.PublicFormat.Raw)), "d": part(d)}
    numbers = key.private_numbers()
    public = numbers.public_numbers
    if key is RSA:
        names = {"d": numbers.d, "p": numbers.p, "q": numbers.q, "dp": numbers.dmp1, "dq": numbers.dmq1, "qi": numbers.iqmp}
        return {"kty": "RSA", "n": whole(public.n), "e": whole(public.e), **{name: whole(it) for name, it in names.items()}}
    size = key.key_size // 8
    names = {"x": public.x, "y": public.y, "d": numbers.private_value}
    return {"kty": "EC", "crv": f"P-{key.key_size}", **{name: whole(it, size) for name, it in names.items()}}


JWKS = {algorithm: jwk(key) for algorithm, key in KEYS.items()}


def verify(algorithm, token):
    """Verifies a token by cryptography."""
    message, _, last = token.rpartition(".")
    signature = base64.urlsafe_b64decode(last + "==")
    key, digest = KEYS[algorithm].public_key(), getattr(hashes, f"SHA{algorithm[2:]}", lambda: None)()
    if algorithm == "EdDSA":
        key.verify(signature, message.encode())
    elif algorithm.startswith("ES"):
        numbers = (int.from_bytes(signature[:half], "big") for half in [len(signature) // 2])
        r, s = next(numbers), int.from_bytes(signature[len(signature) // 2 :], "big")
        key.verify(utils.encode_dss_signature(r, s), message.encode(), ec.ECDSA(digest))
    else:
        padded = padding.PSS(padding.MGF1(digest), digest.digest_size) if algorithm.startswith("PS") else padding.PKCS1v15()
        key.verify(signature, message.encode(), padded, digest)


def forms(algorithm):
    """Returns the forms of a private key that `encode` takes."""
    key, known = KEYS[algorithm], JWKS[algorithm]
    found = [key, pem(key), pem(key).decode(), bytearray(pem(key)), memoryview(pem(key)), known, jwt.PyJWK(known), jwt.PyJWK(known, algorithm)]
    if key is not ED:
        found.append(pem(key, serialization.PrivateFormat.TraditionalOpenSSL))
    if key is RSA:
        found.append({name: it for name, it in known.items() if len(name) == 1 and name not in "pq" or name == "kty"})
    return found


def all_algorithms():
    at(NOW)
    for algorithm, key in KEYS.items():
        for it in forms(algorithm):
            token = outcome(jwt.encode, CLAIMS, it, algorithm, {"kid": "a"})
            gives(CLAIMS, jwt.decode, token, public_pem(key), [algorithm])
            gives(None, verify, algorithm, token)
            gives({"alg": algorithm, "kid": "a", "typ": "JWT"}, jwt.get_unverified_header, token)
            if PEER is not None:
                gives(CLAIMS, PEER.decode, token, key.public_key(), [algorithm])
    gives("RS256", lambda: jwt.get_unverified_header(jwt.encode({}, jwt.PyJWK(JWKS["RS256"])))["alg"])
    gives("PS512", lambda: jwt.get_unverified_header(jwt.encode({}, jwt.PyJWK({**JWKS["RS256"], "alg": "PS512"})))["alg"])
    gives("PS256", lambda: jwt.get_unverified_header(jwt.encode({}, RSA, "RS256", {"alg": "PS256"}))["alg"])


def odd_claims():
    """The token is verified, whatever its claims and header say."""
    at(NOW)
    unchecked = {"verify_signature": False}
    for claims in ({}, {"exp": 0, "nbf": 253402300799, "aud": 5, "iss": [], "sub": None}, {"aud": ["a"]}, {"text": "x" * 2**20}):
        gives(claims, lambda claims=claims: jwt.decode(jwt.encode(claims, ED, "EdDSA"), options=unchecked))
    moment = datetime.datetime.fromtimestamp(NOW + 5, tz=datetime.timezone.utc)
    gives({"exp": NOW + 5}, lambda: jwt.decode(jwt.encode({"exp": moment}, ED, "EdDSA"), ED.public_key(), ["EdDSA"]))
    token = jwt.encode({}, ED, "EdDSA", {"crit": ["x"], "x": 1})
    gives({}, jwt.decode, token, ED.public_key(), ["EdDSA"], understood_crit="x")
    gives('{"n":1.1,"z":1,"a":2}', lambda: jwt.Verifier(ED.public_key(), ["EdDSA"]).raw_claims(jwt.encode({"n": 1.10, "z": 1, "a": 2}, ED, "EdDSA")))
    raises(jwt.InvalidTokenError, jwt.encode, {}, ED, "EdDSA", {"kid": 5}, said="Key ID")


def public_keys():
    """A point that is compressed is none in PEM, and is one of a key of cryptography. Of other kinds no key is read."""
    at(NOW)
    for bits, key, head in ((256, P256, "3039301306072a8648ce3d020106082a8648ce3d030107032200"), (384, P384, "3046301006072a8648ce3d020106052b81040022033200")):
        point = key.public_key().public_bytes(serialization.Encoding.X962, serialization.PublicFormat.CompressedPoint)
        lines = textwrap.wrap(base64.b64encode(bytes.fromhex(head) + point).decode(), 64)
        text = "\n".join(["-----BEGIN PUBLIC KEY-----", *lines, "-----END PUBLIC KEY-----", ""])
        algorithm = f"ES{bits}"
        token = jwt.encode({}, key, algorithm)
        raises(jwt.InvalidKeyError, jwt.decode, token, text, [algorithm], said="compressed")
        gives({}, jwt.decode, token, serialization.load_pem_public_key(text.encode()), [algorithm])
    for key in (ec.generate_private_key(ec.SECP521R1()), ed448.Ed448PrivateKey.generate()):
        raises(jwt.InvalidKeyError, jwt.decode, token, public_pem(key), ["EdDSA"], said="kind")
    own, other = ED.public_key(), ed25519.Ed25519PrivateKey.generate().public_key()
    for _ in range(3):
        gives({}, jwt.decode, jwt.encode({}, ED, "EdDSA"), own, ["EdDSA"])
        raises(jwt.InvalidSignatureError, jwt.decode, jwt.encode({}, ED, "EdDSA"), other, ["EdDSA"])


class Failing:
    """A signer with the calls of a private key, which signs another message."""

    def __init__(self, key):
        self.key = key

    def public_key(self):
        return self.key.public_key() if hasattr(self.key, "public_key") else self.key

    def sign(self, message, *how):
        return self.key.sign(message + b" ", *how)


class Signing(Failing):
    def sign(self, message, *how):
        return self.key.sign(message, *how)


def signers_that_fail():
    at(NOW)
    for algorithm, key in KEYS.items():
        gives(CLAIMS, lambda: jwt.decode(jwt.encode(CLAIMS, Signing(key), algorithm), key.public_key(), [algorithm]))
        raises(jwt.InvalidKeyError, jwt.encode, CLAIMS, Failing(key), algorithm, said="signature")
    # the private number of another key
    other = jwk(ED)
    raises(jwt.InvalidKeyError, jwt.encode, {}, {**other, "d": part(bytes(32))}, "EdDSA", said="signature")
    raises(jwt.InvalidKeyError, jwt.encode, {}, {**JWKS["ES256"], "d": part(bytes(31) + b"\5")}, "ES256")
    raises(jwt.InvalidKeyError, jwt.encode, {}, {**JWKS["RS256"], "d": whole(RSA.private_numbers().d + 2)}, "RS256")


def slips():
    """A key with which nothing is signed is an error that says what it is, and shows nothing of it."""
    encrypted = pem(RSA, encryption=serialization.BestAvailableEncryption(b"password"))
    short = rsa.generate_private_key(65537, 1024)
    public = {name: it for name, it in JWKS["RS256"].items() if name in ("kty", "n", "e")}
    for key, algorithm, said in (
        (encrypted, "RS256", "encrypted"),
        (short, "RS256", "2048"),
        (pem(short), "PS512", "2048"),
        (P256, "RS256", "RS256"),
        (P256, "ES384", "ES384"),
        (RSA, "EdDSA", "EdDSA"),
        (ED, "ES256", "ES256"),
        (ec.generate_private_key(ec.SECP521R1()), "ES384", "PublicKey"),
        (ed448.Ed448PrivateKey.generate(), "EdDSA", "Ed448"),
        (public_pem(RSA), "RS256", "public"),
        (RSA.public_key(), "RS256", "public"),
        (public, "RS256", "private"),
        (jwt.PyJWK(public), "RS256", "private"),
        ({"keys": [JWKS["RS256"]]}, "RS256", "set"),
        (jwt.PyJWKSet([JWKS["RS256"]]), "RS256", "set"),
        ({**JWKS["RS256"], "alg": "RS512"}, "RS256", "RS512"),
        ({**JWKS["RS256"], "p": "AA=="}, "RS256", "p "),
        ({**JWKS["RS256"], "q": "Aw"}, "RS256", "numbers"),
        ({name: it for name, it in JWKS["RS256"].items() if name != "qi"}, "RS256", "qi"),
        ({**JWKS["RS256"], "oth": []}, "RS256", "primes"),
        (SECRET, "RS256", "PEM"),
        ({"kty": "oct", "k": part(SECRET.encode())}, "RS256", "not for RS256"),
        (pem(RSA).replace(b"A", b"B"), "RS256", "PEM"),
        (pem(RSA), "HS256", "private"),
    ):
        got = outcome(jwt.encode, {}, key, algorithm)
        test(f"{got!r}, not InvalidKeyError with {said!r}", type(got) is jwt.InvalidKeyError and said in str(got))
        shown = "".join(traceback.format_exception(got)) + repr(key)
        secret = [it for name, it in JWKS["RS256"].items() if name in ("d", "p", "q") and isinstance(key, jwt.PyJWK)]
        secret += pem(RSA).decode().split("\n")[1:-2]
        test(f"nothing of a key is shown: {shown}", isinstance(key, (dict, bytes)) or not any(it in shown for it in secret))
        test("nothing of a key is in an exception", not any(it in "".join(traceback.format_exception(got)) for it in secret))
    for key in (None, 5, [RSA], object()):
        raises(TypeError, jwt.encode, {}, key, "RS256", said="key")
    for algorithm in ("none", "ES512", "RS257", 5):
        raises(NotImplementedError, jwt.encode, {}, RSA, algorithm, said=str(algorithm))


def changed(signature):
    return signature[:5] + bytes([signature[5] ^ 1]) + signature[6:]


def algorithms_by_name():
    """The objects of the module `algorithms` read keys, sign by cryptography and verify by the library."""
    made = algorithms.get_default_algorithms()
    for name, key in KEYS.items():
        algorithm, message = made[name], f"{part(json.dumps({'alg': name}).encode())}.{part(b'any bytes')}".encode()
        private, public = algorithm.prepare_key(pem(key)), algorithm.prepare_key(public_pem(key).decode())
        of_ssh = key.public_key().public_bytes(serialization.Encoding.OpenSSH, serialization.PublicFormat.OpenSSH)
        gives(public_pem(key), lambda: public_pem(Signing(algorithm.prepare_key(of_ssh))))
        signature = outcome(algorithm.sign, message, private)
        gives(None, verify, name, f"{message.decode()}.{part(signature)}")
        for it in (private, public, key, key.public_key()):
            gives(True, algorithm.verify, message, it, signature)
            gives(False, algorithm.verify, message, it, changed(signature))
        gives(False, algorithm.verify, message[:-1] + b"x", public, signature)
        gives(False, algorithm.verify, message, public, b"")
        gives(False, algorithm.verify, b"any bytes", public, signature)
        gives(True, lambda: algorithm.verify(b"any bytes", public, algorithm.sign(b"any bytes", private)))
        known = json.loads(algorithm.to_jwk(key))
        test(f"the JSON Web Key of {name}", {it: known[it] for it in JWKS[name]} == JWKS[name])
        gives(JWKS[name]["kty"], lambda: jwt.PyJWK(known).key_type)
        again = algorithm.from_jwk(algorithm.to_jwk(key, as_dict=True))
        gives(True, lambda: algorithm.verify(message, key.public_key(), algorithm.sign(message, again)))
        gives(public_pem(key), lambda: public_pem(again))
        gives(True, algorithm.verify, message, algorithm.from_jwk(algorithm.to_jwk(key.public_key())), signature)
        raises(jwt.InvalidKeyError, algorithm.sign, message, public, said="public")
        other = ED if key is not ED else P256
        for it in (pem(other), other, public_pem(other), "no key", b"-----BEGIN PUBLIC KEY-----\nAA==\n-----END PUBLIC KEY-----\n"):
            raises(jwt.InvalidKeyError, algorithm.prepare_key, it)
        for it in (None, 5, object()):
            raises(TypeError, algorithm.prepare_key, it, said="key")
        for it in ("[", "[]", 5, '{"kty":"oct"}', {"kty": known["kty"]}):
            raises(jwt.InvalidKeyError, algorithm.from_jwk, it)
        token = jwt.PyJWS().encode(b"any bytes", pem(key), name)
        gives(b"any bytes", jwt.PyJWS().decode, token, public_pem(key), [name])
        raises(jwt.InvalidSignatureError, jwt.PyJWS().decode, token[:-8] + "AAAAAAAA", public_pem(key), [name])
        gives(b"any bytes", lambda: jwt.PyJWS().decode(jwt.PyJWS().encode(b"any bytes", jwt.PyJWK(JWKS[name]), name), key.public_key(), [name]))
        raises(jwt.InvalidKeyError, jwt.PyJWS().encode, b"any bytes", other, name)
    raises(jwt.InvalidAlgorithmError, jwt.PyJWS().decode, token, jwt.PyJWK(JWKS["RS256"]), ["EdDSA"])
    raises(jwt.InvalidKeyError, jwt.PyJWS().decode, token, RSA.public_key(), ["EdDSA"], said="EdDSA")
    of_sha1 = algorithms.RSAAlgorithm(hashes.SHA1)
    gives(None, lambda: RSA.public_key().verify(of_sha1.sign(b"a", of_sha1.prepare_key(pem(RSA).decode())), b"a", padding.PKCS1v15(), hashes.SHA1()))
    raises(NotImplementedError, of_sha1.verify, b"a", RSA.public_key(), of_sha1.sign(b"a", RSA), said="digest")
    raises(NotImplementedError, algorithms.RSAPSSAlgorithm(hashes.SHA1).sign, b"a", RSA, said="digest")
    raises(NotImplementedError, algorithms.ECAlgorithm(hashes.SHA512).sign, b"a", P256, said="digest")
    gives(hashlib.sha384(b"abc").digest(), made["PS384"].compute_hash_digest, b"abc")
    raises(NotImplementedError, made["EdDSA"].compute_hash_digest, b"abc")


def keys_of_jwks():
    """The objects of the module `algorithms` take a PyJWK, which is the `key` of itself."""
    for name, made in algorithms.get_default_algorithms().items():
        if name == "none":
            continue
        known = JWKS.get(name, {"kty": "oct", "k": part(SECRET.encode())})
        public = {it: known[it] for it in known if name.startswith("HS") or it in ("kty", "crv", "n", "e", "x", "y")}
        secret = SECRET.encode() if name.startswith("HS") else KEYS[name]
        signature = made.sign(b"any bytes", secret)
        for it in (public, known):
            gives(True, lambda: made.verify(b"any bytes", jwt.PyJWK(it).key, signature))
            gives(False, lambda: made.verify(b"any bytes", jwt.PyJWK(it).key, changed(signature)))
            gives(False, lambda: made.verify(b"other bytes", jwt.PyJWK(it).key, signature))
        gives(True, lambda: made.verify(b"any bytes", secret, made.sign(b"any bytes", jwt.PyJWK(known).key)))
        gives(True, lambda: made.verify(b"any bytes", made.prepare_key(jwt.PyJWK(public).key), signature))
        if not name.startswith("HS"):
            raises(jwt.InvalidKeyError, made.sign, b"any bytes", jwt.PyJWK(public).key, said="public")
            raises(jwt.InvalidKeyError, made.prepare_key, jwt.PyJWK({"kty": "oct", "k": part(SECRET.encode())}).key)
        other = jwt.PyJWK({"kty": "oct", "k": part(SECRET.encode()), "alg": "HS512" if name == "HS256" else "HS256"})
        raises(jwt.InvalidKeyError, made.verify, b"any bytes", other.key, signature, said=name)
    # as social-auth-core verifies, with the algorithm of the key
    for name in ("RS256", "ES256", "ES384", "EdDSA"):
        key, token = jwt.PyJWK({**JWKS[name], "alg": name}), jwt.encode(CLAIMS, KEYS[name], name)
        message, _, last = token.rpartition(".")
        gives(True, key.Algorithm.verify, message.encode(), key.key, base64.urlsafe_b64decode(last + "=="))


def dicts_that_change():
    """A PyJWK is the key that its dict was."""
    at(NOW)
    for name, known in JWKS.items():
        given = dict(known, kid="a", use="sig")
        key, token = jwt.PyJWK(given), jwt.encode(CLAIMS, KEYS[name], name)
        given.update(kid="b", use="enc", d="AA", n="AA", x="AA")
        gives(("a", "sig"), lambda: (key.key_id, key.public_key_use))
        gives(CLAIMS, jwt.decode, token, key, [name])
        gives(CLAIMS, lambda: jwt.decode(jwt.encode(CLAIMS, key, name), KEYS[name].public_key(), [name]))
        gives(b"a", lambda: jwt.PyJWS().decode(jwt.PyJWS().encode(b"a", key, name), KEYS[name].public_key(), [name]))
    given = {"kty": "oct", "k": part(SECRET.encode()), "key_ops": ["sign"]}
    key = jwt.PyJWK(given)
    given["key_ops"].append("other")
    given["k"] = part(b"another secret")
    gives(b"a", lambda: jwt.PyJWS().decode(jwt.PyJWS().encode(b"a", key), SECRET, ["HS256"]))
    gives(CLAIMS, lambda: jwt.decode(jwt.encode(CLAIMS, key), SECRET, ["HS256"]))
    gives(["sign"], lambda: key._jwk_data["key_ops"])


def private_keys():
    """A private key where a public one is expected, or a secret, is an error that says so."""
    for name, key in KEYS.items():
        token = jwt.encode({}, key, name)
        for call in (lambda it: jwt.decode(token, it, [name]), lambda it: jwt.Verifier(it, [name]), lambda it: jwt.verify(b"", b"", it, name)):
            raises(TypeError, call, key, said="key is a private key, ")
            raises(TypeError, call, key, said="pass the public key")
            raises(jwt.InvalidKeyError, call, pem(key), said="it is a private key; pass the public key")
            raises(jwt.InvalidKeyError, call, pem(key).decode(), said="it is a private key; pass the public key")
        for it in (key, pem(key), pem(key).decode(), bytearray(pem(key))):
            raises(jwt.InvalidKeyError, jwt.encode, {}, it, said='this is a private key: give its algorithm, such as algorithm="RS256"')


def threads():
    """One key signs in many threads."""
    at(NOW)
    with concurrent.futures.ThreadPoolExecutor(8) as pool:
        got = list(pool.map(lambda n: jwt.decode(jwt.encode({"n": n}, ED, "EdDSA"), ED.public_key(), ["EdDSA"])["n"], range(80)))
    test("each thread has its own token", got == list(range(80)))


FORKING = """
import os, signal, sys, threading, time
sys.path[:] = {path}
if {is_by_ctypes}:
    sys.modules["jwtproved._fast"] = None
import jwtproved as jwt
key, algorithm = {key!r}, {algorithm!r}
thread = threading.Thread(target=lambda: {call})
thread.start()
children = []
while thread.is_alive() or not children:
    time.sleep({pause})
    child = os.fork()
    if child == 0:
        # ends a child that waits for a lock
        signal.alarm(20)
        {call}
        os._exit(0)
    children.append(child)
thread.join()
sys.exit(any([os.waitpid(it, 0)[1] for it in children]))
"""


def forks_at_first():
    """A child that is forked while a thread signs for the first time, and imports cryptography, signs too."""
    calls = {
        "jwt.encode({}, key, algorithm)": [(pem(RSA), "RS256"), (pem(ED).decode(), "EdDSA"), (JWKS["ES256"], "ES256")],
        'jwt.PyJWS().encode(b"a", key, algorithm)': [(pem(P384), "ES384")],
        "jwt.PyJWK(key).Algorithm.prepare_key(jwt.PyJWK(key))": [(JWKS["RS256"], "RS256")],
    }
    begun = []
    for call, keys in calls.items():
        for key, algorithm in keys:
            for pause in (0, 0.02):
                about = {"path": sys.path, "is_by_ctypes": sys.modules["jwtproved._fast"] is None, "call": call, "key": key, "algorithm": algorithm}
                program = FORKING.format(**about, pause=pause)
                begun.append((f"{call} {algorithm} {pause}", subprocess.Popen([sys.executable, "-c", program], stderr=subprocess.PIPE, text=True)))
    for name, it in begun:
        test(f"forks: {name}: {it.communicate()[1]}", it.returncode == 0)


def without_cryptography():
    """Without cryptography the error names what brings it, and secrets sign."""
    found = sys.modules["cryptography"]
    sys.modules["cryptography"] = None
    try:
        raises(NotImplementedError, jwt.encode, {}, pem(RSA), "RS256", said="jwtproved[crypto]")
        raises(NotImplementedError, _cryptography.need, "this", said="this")
        gives({}, lambda: jwt.decode(jwt.encode({}, SECRET), SECRET, ["HS256"]))
    finally:
        sys.modules["cryptography"] = found


test("the tests have a JSON Web Key of each kind", {it["kty"] for it in JWKS.values()} == {"RSA", "EC", "OKP"} and json.dumps(JWKS))
for step in (all_algorithms, odd_claims, public_keys, signers_that_fail, slips, algorithms_by_name, keys_of_jwks, dicts_that_change, private_keys):
    step()
for step in (threads, forks_at_first, without_cryptography):
    step()
finish("signing")
