"""Has the library for C read each key file and certificate of key_files.jsonl in crates/jwt_vectors/data, and compares the JSON Web Key of it,
or the refusal, with what the row wants. An RSA key of fewer than 2048 bits is refused, which the rows do not say. JWT_LIBRARY names the
library. The last line counts."""
import argparse
import base64
import os
import sys

from library import CERTIFICATE, DATA, OK, TEXT, Handle, add, key_text, name, rows

SOURCES = {"public_key_from_pem": TEXT, "public_key_from_der": TEXT, "jwk_from_pem": TEXT, "unverified_key_from_certificate_pem": CERTIFICATE}
CURVES = {65: "P-256", 97: "P-384"}
# what the library for C says of the kinds of refusals: certificates are told apart, and all other bytes are no key
UNFIT, OTHER, CERTIFICATE_GIVEN = "Key fits no algorithm", "BadKey", "Certificate, and not a key"
KINDS = {"UnsupportedAlgorithm": "UnsupportedAlgorithm", "Provider": "Private key, and not a public one"}


def part(data):
    return base64.urlsafe_b64encode(data).rstrip(b"=").decode()


def key_of(want):
    """Returns the JSON Web Key of a row's key, whose numbers are hexadecimal if it is not one."""
    if "kty" in want:
        return want
    if want["family"] == "Rsa":
        n, e = (bytes.fromhex(want[it]).lstrip(b"\0") for it in ("n", "e"))
        return {"kty": "RSA", "n": part(n), "e": part(e)}
    point = bytes.fromhex(want["bytes"])
    if want["family"] == "Ed":
        return {"kty": "OKP", "crv": "Ed25519", "x": part(point)}
    half = len(point) // 2
    return {"kty": "EC", "crv": CURVES[len(point)], "x": part(point[1 : half + 1]), "y": part(point[half + 1 :])}


def is_certificate(row):
    """Whether the first block of a text in PEM is a certificate."""
    lines = str(row.get("pem")).replace("\r", "\n").split("\n")
    return next((it for it in lines if it.startswith("-----BEGIN ")), "").startswith("-----BEGIN CERTIFICATE-----")


def wanted(row):
    """Returns the JSON Web Key that a row wants, or the name of the refusal."""
    if "err" in row["want"]:
        is_given = SOURCES[row["call"]] == TEXT and is_certificate(row)
        return CERTIFICATE_GIVEN if is_given else KINDS.get(row["want"]["err"].split("(")[0], OTHER)
    key = key_of(row["want"]["ok"])
    is_short = key["kty"] == "RSA" and len(base64.urlsafe_b64decode(key["n"] + "==")) < 256
    return UNFIT if is_short else key


def got(row):
    """Returns the JSON Web Key that the library reads, or the name of the refusal."""
    data = row["pem"].encode() if isinstance(row.get("pem"), str) else bytes.fromhex(row["der"]["hex"])
    with Handle() as keys:
        status, items, kept = add(keys, SOURCES[row["call"]], data)
        if status != OK:
            return name(status)
        return key_text(keys, 0) if (items, kept) == (1, 1) else (items, kept)


def is_read(row):
    """Whether the library for C reads what the row is about, as bytes that stand in it as they are."""
    given = row.get("pem", row.get("der"))
    return row["call"] in SOURCES and (isinstance(given, str) or (isinstance(given, dict) and list(given) == ["hex"]))


def main():
    argparse.ArgumentParser(description=__doc__).parse_args()
    passed = failed = 0
    for row in filter(is_read, rows(os.path.join(DATA, "key_files.jsonl"))):
        is_well = got(row) == wanted(row)
        passed, failed = passed + is_well, failed + (not is_well)
        if not is_well:
            print(f"FAILED: {row['id']}: {got(row)}, not {wanted(row)}")
    print(f"{passed} key files and certificates read from Python, {failed} failed")
    return failed > 0 or passed < 100


if __name__ == "__main__":
    sys.exit(main())
