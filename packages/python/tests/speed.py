"""Measures `decode` of tokens of 51 bytes of claims, and `encode`, next to PyJWT's: each with a key that was made before, in turns in one
process. Prints the least of the times. It needs PyJWT and cryptography."""
import time

import jwt
import jwtproved
from cryptography.hazmat.primitives.asymmetric import ec, ed25519, rsa

CLAIMS = {"sub": "b@b.com", "company": "ACME", "exp": 2532524891}
PRIVATE = {
    "RS256": rsa.generate_private_key(65537, 2048),
    "ES256": ec.generate_private_key(ec.SECP256R1()),
    "EdDSA": ed25519.Ed25519PrivateKey.generate(),
}
KEYS = {"HS256": ("secret", "secret"), **{name: (it, it.public_key()) for name, it in PRIVATE.items()}}
PACKAGES, TURNS = (jwtproved, jwt), 1000


def decodes(algorithm):
    private, public = KEYS[algorithm]
    token = jwt.encode(CLAIMS, private, algorithm)
    return lambda package: package.decode(token, public, algorithms=[algorithm])


def microseconds(call, package, count):
    start = time.perf_counter()
    for _ in range(count):
        call(package)
    return (time.perf_counter() - start) / count * 1e6


def compare(what, call, count):
    """Prints the least times of a call, which each turn makes this often."""
    least = dict.fromkeys(PACKAGES, float("inf"))
    for _ in range(TURNS):
        for package in PACKAGES:
            least[package] = min(least[package], microseconds(call, package, count))
    ours, theirs = least.values()
    print(f"{what}: jwtproved {ours:.1f} microseconds, PyJWT {jwt.__version__} {theirs:.1f}, which is {ours / theirs:.2f} of it")


for algorithm, count in (("HS256", 100), ("RS256", 40), ("ES256", 20), ("EdDSA", 20)):
    compare(f"decode with {algorithm}", decodes(algorithm), count)
compare("encode with RS256", lambda package: package.encode(CLAIMS, PRIVATE["RS256"], "RS256"), 2)
