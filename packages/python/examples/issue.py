"""Issues tokens with RS256, ES256 and EdDSA, whose keys the library never sees: `cryptography` signs instead of a KMS or an HSM.
The library verifies each signature with the public key before there is a token. The last line counts."""
from cryptography.hazmat.primitives import hashes
from cryptography.hazmat.primitives.asymmetric import ec, ed25519, padding, rsa

import jwtproved as jwt

CLAIMS = {"exp": 2532524891, "sub": "ada"}
RSA = rsa.generate_private_key(65537, 2048)
CURVE = ec.generate_private_key(ec.SECP256R1())
EDWARDS = ed25519.Ed25519PrivateKey.generate()


def by_rsa(message):
    return RSA.sign(message, padding.PKCS1v15(), hashes.SHA256())


def in_der(message):
    return CURVE.sign(message, ec.ECDSA(hashes.SHA256()))


def by_curve(message):
    return jwt.ecdsa_signature(in_der(message), "ES256")


def issued(algorithm, sign, key, claims=CLAIMS):
    """Returns the token of the claims, whose message the call signs."""
    part = jwt.signing_input(claims, algorithm)
    return jwt.encode_by_signature(part, sign(part.message), key.public_key())


def answer(algorithm, sign, key, claims=CLAIMS):
    """Returns the claims of the issued token, or the text of why there is none."""
    try:
        return jwt.decode(issued(algorithm, sign, key, claims), key.public_key(), [algorithm])
    except (ValueError, jwt.InvalidKeyError) as error:
        return str(error)


results = [
    answer("RS256", by_rsa, RSA) == CLAIMS,
    answer("ES256", by_curve, CURVE) == CLAIMS,
    answer("EdDSA", EDWARDS.sign, EDWARDS) == CLAIMS,
    # numbers stay as Python writes them
    answer("EdDSA", EDWARDS.sign, EDWARDS, {"exp": 2532524891, "weight": 1.5, "count": 2**64}) == {"exp": 2532524891, "weight": 1.5, "count": 2**64},
    # DER instead of the two numbers, and a signature of another message
    answer("ES256", in_der, CURVE).startswith("signature has not the length"),
    "doesn't verify the signature" in answer("EdDSA", lambda message: EDWARDS.sign(message + b"."), EDWARDS),
]
print(f"{sum(results)} tokens signed by cryptography from Python, {results.count(False)} failed")
raise SystemExit(not all(results))
