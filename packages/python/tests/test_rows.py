"""Runs rows of crates/jwt_vectors/data by the installed package: those that verify with a JSON Web Key or a set of keys, also an odd one, one
signature by any key, and those about signatures that are made or checked elsewhere, keys in PEM and thumbprints. The last line counts."""
import base64
import glob
import json

from counting import TOP, finish, gives, outcome, part, test

import jwtproved as jwt
from jwtproved import _keys

_OF_KEYS = jwt.InvalidKeyError, jwt.PyJWKError, jwt.PyJWKSetError
KINDS = {
    "BadKey": _OF_KEYS,
    "Base64": (jwt.DecodeError,),
    "ExpiredSignature": (jwt.ExpiredSignatureError,),
    "InvalidAlgorithm": (jwt.InvalidAlgorithmError, ValueError),
    "InvalidKeyFormat": (jwt.InvalidKeyError,),
    "InvalidSignature": (jwt.InvalidSignatureError, ValueError),
    "InvalidToken": (jwt.DecodeError,),
    "Json": (jwt.DecodeError, ValueError),
    "NoKey": (jwt.UnknownKeyError,),
    "NoUsableKey": _OF_KEYS,
    "Provider": (jwt.InvalidKeyError,),
    "Signing": (ValueError,),
    "UnsupportedAlgorithm": (jwt.InvalidKeyError,),
}


def raw(value):
    return bytes.fromhex(value["hex"]) if isinstance(value, dict) else value.encode()


def token_by_key(row):
    """Returns the claims of a row's token, by the options that the row asks for, and the library's defaults for others."""
    asked = dict(row["validation"])
    algorithms, leeway = asked.pop("algorithms"), asked.pop("leeway", 60)
    test(f"{row['id']} asks for {asked}", not asked)
    options = {"require": ["exp"], "verify_nbf": False, "verify_iat": False}
    key = row["set"] if row["call"] == "decode_with_set" else row["key"]["jwk"]
    verifier = jwt.Verifier(key, algorithms, options, leeway=leeway, reject_tokens_expiring_in_less_than=0)
    return verifier.decode(row["token"], now=row["now"])


def token_by_odd_set(row):
    """Returns the claims of a row's token, by the text of a set, or of a key alone."""
    read = jwt.PyJWK if row["id"].startswith("alone: ") else jwt.PyJWKSet
    return jwt.Verifier(read.from_json(row["set"]), row["algorithms"], {"require": ["exp"]}).decode(row["token"], now=row["time"])


def token_by_verdict(row):
    part = jwt.SignedPart(row["algorithm"], raw(row["message"]), raw(row["signature"]))
    options = {"require": ["exp"], "verify_nbf": False}
    # a token is accepted up to the end of the leeway here, and to a second before it by the package
    return jwt.decode_by_verdict(row["token"], part, row["verdict"], row["validation"]["algorithms"], options, leeway=61, now=row["now"])


def header(row):
    """Returns the algorithm of a row's header, and its other members; one without typ says so."""
    members = {"typ": None, **row["header"]}
    return members.pop("alg"), members


def claims(row):
    return row["claims"] if "claims" in row else json.loads(row["claims_json"])


def values(message):
    """Returns the header and the payload of a message, whose members may be in any order."""
    return [json.loads(base64.urlsafe_b64decode(it + "==")) for it in message.split(".")]


def message(row):
    algorithm, members = header(row)
    part = jwt.signing_input(claims(row), algorithm, members)
    return {"algorithm": part.algorithm, "message": values(part.message.decode())}


def token_by_signature(row):
    return jwt.encode_by_signature(jwt.SigningInput(row["algorithm"], raw(row["message"])), raw(row["signature"]))


def key_of(key):
    """Returns a key as the package takes it, or None for one that has no such form."""
    (form, value), = key.items()
    if form == "jwk":
        return value
    if form == "rsa_components":
        return {"kty": "RSA", **{name: it if isinstance(it, str) else part(raw(it)) for name, it in zip("ne", value)}}
    if form == "ec_components":
        return {"kty": "EC", "crv": "P-256" if len(value[0]) < 60 else "P-384", "x": value[0], "y": value[1]}
    if form == "ed_der":
        return {"kty": "OKP", "crv": "Ed25519", "x": part(raw(value))}
    # a point that is not compressed (SEC 1 section 2.3.3)
    octets = raw(value)
    if form == "ec_der" and octets[:1] == b"\4" and len(octets) in (65, 97):
        half = len(octets) // 2
        return {"kty": "EC", "crv": "P-256" if half == 32 else "P-384", "x": part(octets[1 : half + 1]), "y": part(octets[half + 1 :])}
    return octets if form == "secret" else None


def is_signature(row):
    return jwt.verify(raw(row["message"]), base64.urlsafe_b64decode(row["signature"] + "=="), key_of(row["key"]), row["algorithm"])


def parts(row):
    part = jwt.signed_part(row["token"])
    return {"header": jwt.get_unverified_header(row["token"]), "signed": {"message": part.message.hex(), "signature": part.signature.hex()}}


def signature(row):
    return jwt.ecdsa_signature(raw(row["der"]), row["algorithm"]).hex()


def thumbprint(row):
    key = row["jwk"] if "jwk" in row else json.loads(row["jwk_json"])
    return jwt.thumbprint(key, int(row["hash"].removeprefix("SHA")))


def key_in_pem(row):
    return json.loads(_keys.keys_of(raw(row["pem"])).text())


CALLS = {
    "verify": is_signature,
    "decode_with_kept": token_by_odd_set,
    "signing_input": message,
    "encode_by_signature": token_by_signature,
    "ecdsa_signature": signature,
    "signed_part": parts,
    "decode_by_verdict": token_by_verdict,
    "jwk_from_pem": key_in_pem,
    "Jwk::thumbprint": thumbprint,
}


# signatures of a message that is one, and not that of the row's header and claims
OTHERS = ("a signature of other claims", "a signature of another header")


def call_of(row):
    """Returns what runs a row, or None for one that the package has no call for."""
    # some headers and keys are those of Rust, and not JSON of one
    if "header" in row.get("header", {}) or "other" in row.get("jwk", {}) or row.get("provider") not in (None, "StandardProvider", "RsaProvider"):
        return None
    # the bytes of a signature are given, and not its text
    if row["call"] == "verify" and (key_of(row["key"]) is None or row["want"] == {"err": "Base64"}):
        return None
    # the package is given no header and no claims with a message, and signs other numbers than integers too
    if row["call"] in ("signing_input", "encode_by_signature") and (row["want"].get("err", "")[:7] not in ("", "Signing") or row["id"] in OTHERS):
        return None
    is_of_key = row["call"] == "decode_with_set" or row["call"] == "decode" and "jwk" in row["key"]
    if is_of_key and row["file"] == "standard":
        return token_by_key
    return CALLS.get(row["call"])


def is_weak(row):
    """Returns whether a row reads a key of RSA with fewer than 2048 bits, which the package refuses (RFC 7518 section 3.3)."""
    return row["call"] == "jwk_from_pem" and len(row["want"].get("ok", {}).get("n", "A" * 342)) < 342


def run(row, call):
    want = {"err": "InvalidKeyFormat"} if is_weak(row) else row["want"]
    if "ok" in want:
        ok = want["ok"]
        if row["call"] == "signing_input":
            ok = {**ok, "message": values(ok["message"])}
        gives(ok["claims"] if isinstance(ok, dict) and "claims" in ok else ok, call, row)
        return
    got = outcome(call, row)
    kinds = KINDS[want["err"].partition("(")[0]]
    if row["call"] in ("decode_with_set", "decode_with_kept") and want["err"] in ("InvalidKeyFormat", "UnsupportedAlgorithm"):
        # the token named the key
        kinds += (jwt.InvalidAlgorithmError,)
    if row.get("algorithms") == []:
        # a mistake of the caller
        kinds = (ValueError,)
    if row["call"] == "decode_with_set" and want["err"] == "InvalidAlgorithm":
        # PyJWKSet leaves a key out that does not serve its own alg
        kinds += (jwt.InvalidKeyError,)
    test(f"{row['id']}: {got!r}, not {want}", type(got) in kinds)


counts = dict.fromkeys([*CALLS, "decode", "decode_with_set"], 0)
for path in sorted(glob.glob(f"{TOP}/crates/jwt_vectors/data/*.jsonl")):
    with open(path, encoding="utf-8") as file:
        for line in map(json.loads, file):
            line["file"] = path.rpartition("/")[2].removesuffix(".jsonl")
            called = call_of(line)
            if called is not None:
                counts[line["call"]] += 1
                run(line, called)
test(f"each call has rows: {counts}", all(counts.values()))
finish("rows")
