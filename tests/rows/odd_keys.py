"""The keys of tests/rows/odd_sets, as JSON Web Keys, and how each signs: by Python's cryptography, hmac and integers."""
import base64
import hashlib
import hmac
import json

from cryptography.hazmat.primitives.asymmetric import ec, ed25519, rsa
from cryptography.hazmat.primitives.serialization import Encoding, PublicFormat

CLAIMS = {"exp": 4102444800, "sub": "alice"}
# The fronts of DigestInfo (RFC 8017 section 9.2).
DIGEST_INFO = {
    "256": bytes.fromhex("3031300d060960864801650304020105000420"),
    "384": bytes.fromhex("3041300d060960864801650304020205000430"),
    "512": bytes.fromhex("3051300d060960864801650304020305000440"),
}
P256_ORDER = 0xFFFFFFFF00000000FFFFFFFFFFFFFFFFBCE6FAADA7179E84F3B9CAC2FC632551
P384_ORDER = 2**384 - 0x389CB27E0BC8D220A7E5F24DB74F58851313E695333AD68D
CURVES = {"P-256": (ec.SECP256R1(), P256_ORDER), "P-384": (ec.SECP384R1(), P384_ORDER), "P-521": (ec.SECP521R1(), None)}


class Key:
    """A private key: its algorithm, the members of its public JSON Web Key, and the function that signs."""

    def __init__(self, alg, members, sign, public=None):
        self.alg, self.members, self.sign, self.public = alg, members, sign, public

    def file(self, encoding, form=PublicFormat.SubjectPublicKeyInfo):
        return self.public.public_bytes(encoding, form)


def text_of(raw):
    return base64.urlsafe_b64encode(raw).rstrip(b"=").decode()


def octets_of_number(number, count=None):
    return number.to_bytes(count or (number.bit_length() + 7) // 8 or 1, "big")


def number_text(number, count=None):
    return text_of(octets_of_number(number, count))


def hash_of(alg):
    return lambda raw: hashlib.new("sha" + alg[2:], raw).digest()


def secret(raw, alg="HS256"):
    return Key(alg, {"kty": "oct", "k": text_of(raw)}, lambda alg, message: hmac.digest(raw, message, "sha" + alg[2:]))


def pkcs1(alg, message, size):
    """RFC 8017 section 9.2."""
    end = b"\0" + DIGEST_INFO[alg[2:]] + hash_of(alg)(message)
    return b"\0\1" + b"\xff" * (size - 2 - len(end)) + end


def pss(alg, message, size):
    """RFC 8017 section 9.1.1 for a modulus whose first bit is set, with a salt of zeros."""
    digest = hash_of(alg)
    salt = bytes(int(alg[2:]) // 8)
    found = digest(bytes(8) + digest(message) + salt)
    block = bytes(size - 2 - len(found) - len(salt)) + b"\1" + salt
    mask = b"".join(digest(found + number.to_bytes(4, "big")) for number in range(len(block) // len(found) + 1))
    masked = bytes(a ^ b for a, b in zip(block, mask))
    return bytes([masked[0] & 0x7F]) + masked[1:] + found + b"\xbc"


def rsa_key(p, q, e=65537, n=None, d=None):
    """Returns the key of two primes, or of any modulus and exponents."""
    n, d = n or p * q, d or pow(e, -1, (p - 1) * (q - 1))
    size = (n.bit_length() + 7) // 8

    def sign(alg, message):
        block = (pss if alg[0] == "P" else pkcs1)(alg, message, size)
        return pow(int.from_bytes(block, "big"), d, n).to_bytes(size, "big")

    public = rsa.RSAPublicNumbers(e, n).public_key() if n % 2 and e > 2 and e % 2 else None
    return Key("RS256", {"kty": "RSA", "n": number_text(n), "e": number_text(e)}, sign, public)


def ec_key(crv, d):
    """Returns the key of a private number. It signs with one nonce for all messages (FIPS 186-5 section 6.4.1)."""
    curve, order = CURVES[crv]
    size = (curve.key_size + 7) // 8
    alg = {"P-256": "ES256", "P-384": "ES384", "P-521": "ES512"}[crv]
    public = ec.derive_private_key(d, curve).public_key()
    point = public.public_numbers()

    def sign(alg, message):
        nonce = 7919
        r = ec.derive_private_key(nonce, curve).public_key().public_numbers().x % order
        z = int.from_bytes(hash_of(alg)(message)[:size], "big")
        s = pow(nonce, -1, order) * (z + r * d) % order
        return r.to_bytes(size, "big") + s.to_bytes(size, "big")

    members = {"kty": "EC", "crv": crv, "x": number_text(point.x, size), "y": number_text(point.y, size)}
    return Key(alg, members, sign, public)


def ed_key(seed):
    private = ed25519.Ed25519PrivateKey.from_private_bytes(seed)
    public = private.public_key()
    x = text_of(public.public_bytes(Encoding.Raw, PublicFormat.Raw))
    return Key("EdDSA", {"kty": "OKP", "crv": "Ed25519", "x": x}, lambda alg, message: private.sign(message), public)


def item(key, **more):
    """Returns the JSON Web Key with more members, and with the kid `a` if they name none."""
    return {**key.members, "kid": "a", **more}


def bare(key, **more):
    return {**key.members, **more}


def token(key, kid="a", claims=CLAIMS, **header):
    """Returns a token that the key signs. The header leaves out each parameter that is None here."""
    header = {"alg": key.alg, "kid": kid, **header}
    parts = [{name: value for name, value in header.items() if value is not None}, claims]
    message = ".".join(text_of(json.dumps(part, separators=(",", ":")).encode()) for part in parts)
    return message + "." + text_of(key.sign(header["alg"], message.encode()))


SECRET = secret(b"a secret of thirty-two characters")
SECRET2 = secret(b"another secret of 32 characters!!")
RSA = rsa_key(2**1024 - 105, 2**1023 + 1155)
RSA2 = rsa_key(2**1024 - 105, 3 * 2**1022 + 1037)
SMALL = rsa_key(2**512 - 569, 2**511 + 111)
EC = ec_key("P-256", 0x1D2C3B4A59687796A5B4C3D2E1F00F1E)
EC2 = ec_key("P-256", 0x2A3B4C5D6E7F8091A2B3C4D5E6F70819)
EC384 = ec_key("P-384", 0x3F1E2D3C4B5A69788796A5B4C3D2E1F0)
ED = ed_key(bytes(range(32)))
ED2 = ed_key(bytes(range(1, 33)))
