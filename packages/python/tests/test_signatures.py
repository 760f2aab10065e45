"""Tests what the installed package has for signatures that are checked or made elsewhere: verdicts, messages and tokens. The last line
counts. The tokens are those of RFC 7515 and RFC 8037, and of Python's hmac."""
import hmac
import json

from counting import HS, NOW, SECRET, at, changed, finish, gives, part, raises, signed, test

import jwtproved as jwt

PAYLOAD = "eyJpc3MiOiJqb2UiLA0KICJleHAiOjEzMDA4MTkzODAsDQogImh0dHA6Ly9leGFtcGxlLmNvbS9pc19yb290Ijp0cnVlfQ"
CLAIMS = {"iss": "joe", "exp": 1300819380, "http://example.com/is_root": True}
EXP = CLAIMS["exp"]
# RFC 7515 appendices A.2 and A.3, RFC 8037 appendix A.4
RS256 = f"eyJhbGciOiJSUzI1NiJ9.{PAYLOAD}.cC4hiUPoj9Eetdgtv3hF80EGrhuB__dzERat0XF9g2VtQgr9PJbu3XOiZj5RZmh7AAuHIm4Bh-0Qc_lF5YKt_O8W2Fp5jujGbds9uJdbF9CUAr7t1dnZcAcQjbKBYNX4BAynRFdiuB--f_nZLgrnbyTyWzO75vRK5h6xBArLIARNPvkSjtQBMHlb1L07Qe7K0GarZRmB_eSN9383LcOLn6_dO--xi12jzDwusC-eOkHWEsqtFZESc6BfI7noOPqvhJ1phCnvWh6IeYI2w9QOYEUipUTI8np6LbgGY9Fs98rqVt5AXLIhWkWywlVmtVrBp0igcN_IoypGlUPQGe77Rw"
ES256 = f"eyJhbGciOiJFUzI1NiJ9.{PAYLOAD}.DtEhU3ljbEg8L38VWAfUAqOyKAM6-Xx-F4GawxaepmXFCgfTjDxw5djxLa8ISlSApmWQxfKTUJqPP3-Kg6NU1Q"
EDDSA = "eyJhbGciOiJFZERTQSJ9.RXhhbXBsZSBvZiBFZDI1NTE5IHNpZ25pbmc.hgyY0il_MGCjP0JzlnLWG1PPOt7-09PGcvMg3AIbQR6dWbhijcNR4ki4iylGjg5BhVsPt9g7sVvpAr_MuM0KAg"
RSA_KEY = {"kty": "RSA", "n": "ofgWCuLjybRlzo0tZWJjNiuSfb4p4fAkd_wWJcyQoTbji9k0l8W26mPddxHmfHQp-Vaw-4qPCJrcS2mJPMEzP1Pt0Bm4d4QlL-yRT-SFd2lZS-pCgNMsD1W_YpRPEwOWvG6b32690r2jZ47soMZo9wGzjb_7OMg0LOL-bSf63kpaSHSXndS5z5rexMdbBYUsLA9e-KXBdQOS-UTo7WTBEMa2R2CapHg665xsmtdVMTBQY4uDZlxvb3qCo5ZwKh9kG4LT6_I5IhlJH7aGhyxXFvUK-DWNmoudF8NAco9_h9iaGNj8q2ethFkMLs91kzk2PAcDTW9gb54h4FRWyuXpoQ", "e": "AQAB"}
EC_KEY = {"kty": "EC", "crv": "P-256", "x": "f83OJ3D2xF1Bg8vub9tLe1gHMzV76e8Tus9uPHvRVEU", "y": "x_FEzRu9m36HLN_tue659LNpXW6pCyStikYjKIWI5a0"}
# RFC 8037 appendix A.3
ED_KEY = {"kty": "OKP", "crv": "Ed25519", "x": "11qYAYKxCrfVS_7TyWQHOg7hcvPapiMlrwIaaPcHURo"}
# RFC 7638 section 3.1
KEY_2011 = {"kty": "RSA", "n": "0vx7agoebGcQSuuPiLJXZptN9nndrQmbXEps2aiAFbWhM78LhWx4cbbfAAtVT86zwu1RK7aPFFxuhDR1L6tSoc_BJECPebWKRXjBZCiFV4n3oknjhMstn64tZ_2W-5JsGY4Hc5n9yBXArwl93lqt7_RN5w6Cf0h4QyQ5v-65YGjQR0_FDW2QvzqY368QQMicAtaSqzs8KJZgnYb9c7d0zgdAZHzu6qMQvRL5hajrn1n91CbOpbISD08qNLyrdkt-bFTWhAI4vMQFh6WeZu0fM4lFd2NcRwr3XPksINHaQ-G_xBniIqbw0Ls1jF44-csFCur-kEgU8awapJzKnqDKgw", "e": "AQAB", "alg": "RS256", "kid": "2011-04-29"}


def tokens_of_standards():
    for token, algorithm, key in ((RS256, "RS256", RSA_KEY), (ES256, "ES256", EC_KEY)):
        part_of = jwt.signed_part(token)
        message, _, signature = token.rpartition(".")
        test(f"the parts of {algorithm}", part_of[:2] == (algorithm, message.encode()) and part(part_of.signature) == signature)
        gives(CLAIMS, jwt.decode_by_verdict, token, part_of, True, [algorithm], now=EXP - 1)
        raises(jwt.InvalidSignatureError, jwt.decode_by_verdict, token, part_of, False, [algorithm], now=EXP - 1)
        raises(jwt.ExpiredSignatureError, jwt.decode_by_verdict, token, part_of, True, [algorithm], now=EXP)
        gives(CLAIMS, jwt.decode_by_verdict, token, part_of, True, [algorithm], leeway=61, now=EXP + 60)
        raises(jwt.ExpiredSignatureError, jwt.decode_by_verdict, token, part_of, True, [algorithm], leeway=61, now=EXP + 61)
        verifier = jwt.Verifier(key, [algorithm])
        gives(CLAIMS, verifier.decode, token, EXP - 1)
        raises(jwt.InvalidSignatureError, verifier.decode, changed(token), EXP - 1)
        # the verdict is on another message, or by another algorithm
        other = token.replace(PAYLOAD, "e30")
        raises(jwt.InvalidSignatureError, jwt.decode_by_verdict, other, part_of, True, [algorithm], now=0)
        raises(jwt.InvalidSignatureError, jwt.decode_by_verdict, other, jwt.signed_part(other), False, [algorithm], now=0)
        another = part_of._replace(algorithm="PS256")
        raises(jwt.InvalidAlgorithmError, jwt.decode_by_verdict, token, another, True, ["PS256"], now=0)
    # its payload is not JSON, which is tested once the signature is accepted
    part_of = jwt.signed_part(EDDSA)
    raises(jwt.DecodeError, jwt.decode_by_verdict, EDDSA, part_of, True, ["EdDSA"], now=0, said="payload")
    raises(jwt.InvalidSignatureError, jwt.decode_by_verdict, EDDSA, part_of, False, ["EdDSA"], now=0)
    raises(jwt.DecodeError, jwt.Verifier(ED_KEY, ["EdDSA"]).decode, EDDSA, said="payload")
    raises(jwt.InvalidSignatureError, jwt.Verifier(ED_KEY, ["EdDSA"]).decode, EDDSA.replace("hgyY", "hgyZ"))
    raises(jwt.InvalidKeyError, jwt.Verifier, ED_KEY, ["ES256"])


def verdicts():
    at(NOW)
    token = signed({"exp": NOW + 1})
    part_of = jwt.signed_part(token)
    gives({"exp": NOW + 1}, jwt.decode_by_verdict, token, part_of, True, **HS)
    for it in ("no", "", 1, 0, None, [False]):
        raises(TypeError, jwt.decode_by_verdict, token, part_of, it, said="verdict", **HS)
    raises(TypeError, jwt.decode_by_verdict, token, tuple(part_of), True, said="part", **HS)
    raises(ValueError, jwt.decode_by_verdict, token, part_of._replace(algorithm="HS257"), True, said="algorithm", **HS)
    raises(TypeError, jwt.decode_by_verdict, token, part_of._replace(algorithm=1), True, said="algorithm", **HS)
    raises(TypeError, jwt.decode_by_verdict, token, part_of._replace(message=5), True, said="message", **HS)
    for it in (32, "text", None):
        raises(TypeError, jwt.decode_by_verdict, token, part_of._replace(signature=it), True, said="signature", **HS)
    for it in (5, None, True, [], {}):
        raises(jwt.DecodeError, jwt.signed_part, it, said="token")
        raises(jwt.DecodeError, jwt.decode_by_verdict, it, part_of, True, said="token", **HS)
    for algorithms in ([], None):
        raises(ValueError, jwt.decode_by_verdict, token, part_of, True, algorithms, said="algorithms")
    for claims, options, kind in (
        ({}, {"audience": "a"}, jwt.MissingRequiredClaimError),
        ({"aud": "b"}, {"audience": "a"}, jwt.InvalidAudienceError),
        ({"iss": "b"}, {"issuer": "a"}, jwt.InvalidIssuerError),
        ({"sub": "b"}, {"subject": "a"}, jwt.InvalidSubjectError),
        ({"nbf": NOW + 1}, {}, jwt.ImmatureSignatureError),
        ({"iat": NOW + 1}, {}, jwt.ImmatureSignatureError),
        ({"exp": 0}, {}, jwt.ExpiredSignatureError),
        ({"iat": "x"}, {}, jwt.InvalidIssuedAtError),
        ({"sub": 5}, {}, jwt.InvalidSubjectError),
        ({"jti": 5}, {"options": {"verify_sub": False}}, jwt.InvalidJTIError),
        ({"aud": ["a"]}, {"audience": "a", "options": {"strict_aud": True}}, jwt.InvalidAudienceError),
        ({"a": 1, "b": None}, {"options": {"require": ["a", "b"]}}, jwt.MissingRequiredClaimError),
    ):
        token = signed(claims)
        raises(kind, jwt.decode_by_verdict, token, jwt.signed_part(token), True, **HS, **options)


def messages():
    """A message that is signed elsewhere gives the token that the package signs itself."""
    at(NOW)
    for digest, algorithm in (("sha256", "HS256"), ("sha384", "HS384"), ("sha512", "HS512")):
        for headers in (None, {"kid": "a"}, {"typ": None}, {"typ": "at+jwt", "a": [1, {"b": None}]}):
            claims = {"exp": NOW + 1, "sub": "ada", "n": 2**64, "a": 1.5}
            message = jwt.signing_input(claims, algorithm, headers)
            mac = hmac.digest(SECRET.encode(), message.message, digest)
            for key in ((), (SECRET,), ({"kty": "oct", "k": part(SECRET.encode()), "alg": algorithm},)):
                token = jwt.encode_by_signature(message, mac, *key)
                gives(jwt.encode(claims, SECRET, algorithm, headers), lambda: token)
                gives(claims, jwt.decode, token, SECRET, [algorithm])
            test(f"the algorithm {message.algorithm}", message.algorithm == algorithm)
            # with the key no token goes out that it did not sign
            raises(jwt.InvalidKeyError, jwt.encode_by_signature, message, bytes(len(mac)), SECRET, said="signature")
            raises(jwt.InvalidKeyError, jwt.encode_by_signature, message, mac, "another secret of 32 bytes or more", said="signature")
    other = {"kty": "oct", "k": part(SECRET.encode()), "alg": "HS256"}
    for key, said in ((other, "not for the algorithm"), (ED_KEY, "not for the algorithm"), ({"keys": [other]}, "set")):
        raises(jwt.InvalidKeyError, jwt.encode_by_signature, message, mac, key, said=said)
    raises(TypeError, jwt.encode_by_signature, message, mac, 5, said="key")


def slips():
    claims = {"exp": NOW}
    message = jwt.signing_input(claims, "HS256")
    mac = bytes(32)
    for it in ("{}", [], 5):
        raises(TypeError, jwt.signing_input, claims, "HS256", it, said="headers")
        raises(TypeError, jwt.encode, claims, SECRET, headers=it, said="headers")
    for it in ("{}", [], 5, None):
        raises(TypeError, jwt.signing_input, it, "HS256", said="payload")
        raises(TypeError, jwt.encode, it, SECRET, said="payload")
    # the claims are in the message
    for it in ("{}", claims, tuple(message), None):
        raises(TypeError, jwt.encode_by_signature, it, mac, said="part must be the SigningInput that signing_input returned")
    raises(TypeError, jwt.encode, {"sub": b"bytes"}, SECRET, said="payload")
    raises(ValueError, jwt.encode, {"a": float("nan")}, SECRET, said="payload")
    raises(ValueError, jwt.encode, {"sub": "\ud800"}, SECRET, said="payload")
    raises(TypeError, jwt.encode_by_signature, message._replace(message=5), mac, said="message")
    for it in (32, None, "text"):
        raises(TypeError, jwt.encode_by_signature, message, it, said="signature")
    for it in ("HS257", "none", ""):
        raises(ValueError, jwt.signing_input, claims, it, said="algorithm")
    for it in (None, 1):
        raises(TypeError, jwt.signing_input, claims, it, said="algorithm")
    # a signature of another length, and what is no message
    for it in (b"", b"s", bytes(31), bytes(33)):
        for key in ((), (SECRET,)):
            raises(ValueError, jwt.encode_by_signature, message, it, *key, said="signature")
    for it in (b"", b"a.b", message.message + b".", message.message[:-1] + b"=", b"e30." + message.message.rpartition(b".")[2]):
        raises(ValueError, jwt.encode_by_signature, message._replace(message=it), mac, said="message")


def ecdsa_signatures():
    # two numbers, 1 and 128 (X.690 section 8.3)
    der = bytes.fromhex("300702010102020080")
    for algorithm, size in (("ES256", 32), ("ES384", 48)):
        gives((1).to_bytes(size, "big") + (128).to_bytes(size, "big"), jwt.ecdsa_signature, der, algorithm)
        for it in (b"", b"0", der + b"\0", der[:-1], bytes(64)):
            raises(ValueError, jwt.ecdsa_signature, it, algorithm, said="der")
    for it in (5, None, [48], "text"):
        raises(TypeError, jwt.ecdsa_signature, it, "ES256", said="der")
    for it in ("HS257", "RS256", "EdDSA"):
        raises(ValueError, jwt.ecdsa_signature, der, it, said="algorithm")
    for it in (None, 10):
        raises(TypeError, jwt.ecdsa_signature, der, it, said="algorithm")


def one_signature():
    """A signature is verified with one key, which has to be for the algorithm. What is one is in the rows of `verify`."""
    key = {"kty": "oct", "k": part(SECRET.encode())}
    message, mac = b"any bytes", hmac.digest(SECRET.encode(), b"any bytes", "sha512")
    for it in (SECRET, SECRET.encode(), key, jwt.PyJWK(key), jwt.PyJWK({**key, "alg": "HS512"})):
        gives(True, jwt.verify, message, mac, it, "HS512")
        gives(True, jwt.verify, message.decode(), memoryview(mac), it, algorithm="HS512")
        for other in ((message + b" ", mac), (message, mac[:-1]), (message, b""), (message, mac[::-1])):
            gives(False, jwt.verify, *other, it, "HS512")
        raises(jwt.InvalidKeyError, jwt.verify, message, mac, it, "ES256", said="ES256")
    raises(jwt.InvalidKeyError, jwt.verify, message, mac, jwt.PyJWK({**key, "alg": "HS512"}), "HS256", said="HS256")
    raises(jwt.InvalidKeyError, jwt.verify, message, mac, {"keys": [key]}, "HS512", said="set")
    raises(jwt.InvalidKeyError, jwt.verify, message, mac, "", "HS512", said="anyone")
    raises(jwt.InvalidKeyError, jwt.verify, message, mac, ED_KEY, "HS512", said="HS512")
    for it in (None, 5, [SECRET]):
        raises(TypeError, jwt.verify, message, mac, it, "HS512", said="key")
        raises(TypeError, jwt.verify, it, mac, SECRET, "HS512", said="message")
        raises(TypeError, jwt.verify, message, it, SECRET, "HS512", said="signature")
        raises(TypeError, jwt.verify, message, mac, SECRET, it, said="algorithm")
    raises(ValueError, jwt.verify, message, mac, SECRET, "none", said="algorithm")


def thumbprints():
    gives("NzbLsXh8uDCcd-6MNwXF4W_7noWXFZAfHkxZsRGC9Xs", jwt.thumbprint, KEY_2011)
    gives("kPrK_qmxVWaYVA9wwBF6Iuo3vVzz7TxHCTwXBygrS4k", jwt.thumbprint, jwt.PyJWK(ED_KEY))
    pem = "-----BEGIN PUBLIC KEY-----\nMCowBQYDK2VwAyEA11qYAYKxCrfVS/7TyWQHOg7hcvPapiMlrwIaaPcHURo=\n-----END PUBLIC KEY-----\n"
    gives("kPrK_qmxVWaYVA9wwBF6Iuo3vVzz7TxHCTwXBygrS4k", jwt.thumbprint, pem)
    for it in (5, None, [ED_KEY]):
        raises(TypeError, jwt.thumbprint, it, said="key")
    for it in (b"[]", {}, {"kty": "x"}, "a secret"):
        raises(jwt.InvalidKeyError, jwt.thumbprint, it, said="thumbprint")
    for it in ("256", None, True, 256.0):
        raises(TypeError, jwt.thumbprint, ED_KEY, it, said="bits")
    for it in (255, 0, 256 + 2**32):
        raises(ValueError, jwt.thumbprint, ED_KEY, it, said="bits")


def headers():
    gives({"alg": "HS256", "kid": "b"}, jwt.get_unverified_header, signed({}, kid="b"))
    for it in (5, None, True, [], {}):
        raises(jwt.DecodeError, jwt.get_unverified_header, it, said="jwt")
    raises(jwt.DecodeError, jwt.get_unverified_header, "\ud800")
    gives({"alg": "HS256", "crit": ["x"], "x": 1}, jwt.get_unverified_header, changed(signed([1], crit=["x"], x=1)))
    test("a header is read as JSON", json.dumps(jwt.get_unverified_header(RS256)) == '{"alg": "RS256"}')


for step in (tokens_of_standards, verdicts, messages, slips, ecdsa_signatures, one_signature, thumbprints, headers):
    step()
finish("signatures")
