"""Verifies the tokens of RFC 7515 appendices A.2 and A.3, whose signatures `cryptography` checks, such as with keys that are kept in an
HSM. The last line counts."""
import base64

from cryptography.exceptions import InvalidSignature
from cryptography.hazmat.primitives import hashes
from cryptography.hazmat.primitives.asymmetric import ec, padding, rsa, utils

import jwtproved as jwt

PAYLOAD = "eyJpc3MiOiJqb2UiLA0KICJleHAiOjEzMDA4MTkzODAsDQogImh0dHA6Ly9leGFtcGxlLmNvbS9pc19yb290Ijp0cnVlfQ"
CLAIMS = {"iss": "joe", "exp": 1300819380, "http://example.com/is_root": True}
RS256 = f"eyJhbGciOiJSUzI1NiJ9.{PAYLOAD}.cC4hiUPoj9Eetdgtv3hF80EGrhuB__dzERat0XF9g2VtQgr9PJbu3XOiZj5RZmh7AAuHIm4Bh-0Qc_lF5YKt_O8W2Fp5jujGbds9uJdbF9CUAr7t1dnZcAcQjbKBYNX4BAynRFdiuB--f_nZLgrnbyTyWzO75vRK5h6xBArLIARNPvkSjtQBMHlb1L07Qe7K0GarZRmB_eSN9383LcOLn6_dO--xi12jzDwusC-eOkHWEsqtFZESc6BfI7noOPqvhJ1phCnvWh6IeYI2w9QOYEUipUTI8np6LbgGY9Fs98rqVt5AXLIhWkWywlVmtVrBp0igcN_IoypGlUPQGe77Rw"
ES256 = f"eyJhbGciOiJFUzI1NiJ9.{PAYLOAD}.DtEhU3ljbEg8L38VWAfUAqOyKAM6-Xx-F4GawxaepmXFCgfTjDxw5djxLa8ISlSApmWQxfKTUJqPP3-Kg6NU1Q"
N = "ofgWCuLjybRlzo0tZWJjNiuSfb4p4fAkd_wWJcyQoTbji9k0l8W26mPddxHmfHQp-Vaw-4qPCJrcS2mJPMEzP1Pt0Bm4d4QlL-yRT-SFd2lZS-pCgNMsD1W_YpRPEwOWvG6b32690r2jZ47soMZo9wGzjb_7OMg0LOL-bSf63kpaSHSXndS5z5rexMdbBYUsLA9e-KXBdQOS-UTo7WTBEMa2R2CapHg665xsmtdVMTBQY4uDZlxvb3qCo5ZwKh9kG4LT6_I5IhlJH7aGhyxXFvUK-DWNmoudF8NAco9_h9iaGNj8q2ethFkMLs91kzk2PAcDTW9gb54h4FRWyuXpoQ"
X, Y = "f83OJ3D2xF1Bg8vub9tLe1gHMzV76e8Tus9uPHvRVEU", "x_FEzRu9m36HLN_tue659LNpXW6pCyStikYjKIWI5a0"


def number(text):
    return int.from_bytes(base64.urlsafe_b64decode(text + "=" * (-len(text) % 4)), "big")


def by_rsa(part):
    key = rsa.RSAPublicNumbers(65537, number(N)).public_key()
    key.verify(part.signature, part.message, padding.PKCS1v15(), hashes.SHA256())


def by_curve(part):
    key = ec.EllipticCurvePublicNumbers(number(X), number(Y), ec.SECP256R1()).public_key()
    r, s = part.signature[:32], part.signature[32:]
    signature = utils.encode_dss_signature(int.from_bytes(r, "big"), int.from_bytes(s, "big"))
    key.verify(signature, part.message, ec.ECDSA(hashes.SHA256()))


def answer(token, algorithm, verify, now=1300819379):
    """Returns the claims, or the name of the exception. The key is for one algorithm, which the token's must be."""
    part = jwt.signed_part(token)
    try:
        verify(part)
        verdict = True
    except InvalidSignature:
        verdict = False
    try:
        return jwt.decode_by_verdict(token, part._replace(algorithm=algorithm), verdict, [algorithm], now=now)
    except jwt.InvalidTokenError as error:
        return type(error).__name__


results = [
    answer(RS256, "RS256", by_rsa) == CLAIMS,
    answer(ES256, "ES256", by_curve) == CLAIMS,
    answer(RS256, "RS256", by_rsa, now=1300819380) == "ExpiredSignatureError",
    answer(RS256, "PS256", by_rsa) == "InvalidAlgorithmError",
    answer(ES256.replace(PAYLOAD, "e30"), "ES256", by_curve) == "InvalidSignatureError",
]
print(f"{sum(results)} tokens with RSA and curves from Python, {results.count(False)} failed")
raise SystemExit(not all(results))
