"""Runs the rows of tests/claims.jsonl through the calls of the library for C that check or write claims, with tokens of Python's hmac. An
accepted row has the claims, or null for the payload's own bytes; a refused row has the error, with the claim's name, and the failed test.
JWT_LIBRARY names the library. The last line counts."""
import argparse
import base64
import ctypes
import json
import os
import sys

from library import BUFFER_TOO_SMALL, LIBRARY, OF_TEST, OK, PAYLOAD, SECRET, TOP, Handle, add, decoded, error, left, rows, text

sys.path.insert(0, os.path.join(TOP, "tests"))
import tokens  # noqa: E402

KEY, HS256 = b"0123456789abcdef0123456789abcdef", 1


def answer(status, claims, claim, options):
    """Returns the claims, or the error, as a row has them."""
    return {"ok": claims.decode()} if status == OK else {"err": error(status, claim, options)}


def checked(payload, options, now):
    """Returns the error of jwt_check_claims, or none."""
    claim, given = ctypes.c_uint32(99), json.dumps(options).encode()
    status = LIBRARY.jwt_check_claims(payload, len(payload), given, len(given), now, ctypes.byref(claim))
    return error(status, claim.value, options)


def vouched(token, options, now):
    """Returns what jwt_decode_verdict leaves, if the signature is accepted elsewhere."""
    message, signature = token.rsplit(b".", 1)
    signature, claim, given = base64.urlsafe_b64decode(signature + b"=="), ctypes.c_uint32(99), json.dumps(options).encode()
    words = (token, len(token), HS256, message, len(message), signature, len(signature), True, given, len(given), now, ctypes.byref(claim))
    status, claims = left(lambda *buffer: LIBRARY.jwt_decode_verdict(*words, *buffer))
    return answer(status, claims, claim.value, options)


def verified(token, options, now):
    """Returns what a verifier leaves, with the name of the failed test, and whether its verdict agrees with itself, also without a buffer."""
    given = json.dumps(options).encode()
    with Handle() as keys, Handle() as verifier:
        add(keys, SECRET, KEY)
        assert LIBRARY.jwt_verifier_new(keys, given, len(given), 0, 0, verifier) == OK
        status, claims, said = decoded(verifier, token, now)
        again, _, same = decoded(verifier, token, now, 0)
    is_well = said.values() == same.values() and again == (BUFFER_TOO_SMALL if status == OK else status)
    is_well &= (said.len, said.verifier, said.algorithm, said.has_kid) == ((len(claims), 0, HS256, 0) if status == OK else (0, 0, 0, 0))
    is_well &= said.last >= now if status == OK else said.last == 0
    got = answer(status, claims, said.claim, options)
    return got if status == OK else {**got, "test": text(OF_TEST, said.test)}, said.as_signed, is_well


def got(row):
    """Returns what each call leaves of a row."""
    payload, options, now = row["payload"].encode(), {"algorithms": ["HS256"], **row["options"]}, row["now"]
    token = tokens.signed({"alg": "HS256"}, payload, KEY)
    status, read = left(lambda *buffer: LIBRARY.jwt_unverified(token, len(token), PAYLOAD, *buffer))
    return [checked(payload, options, now), vouched(token, options, now), *verified(token, options, now), answer(status, read, 0, options)]


def wanted(row):
    if "err" in row["want"]:
        return [row["want"]["err"], {"err": row["want"]["err"]}, row["want"], 0, True]
    written = row["want"]["ok"]
    claims = {"ok": written or row["payload"]}
    return [None, claims, claims, int(written is None), True, claims]


def main():
    argparse.ArgumentParser(description=__doc__).parse_args()
    passed = failed = 0
    for row in rows(os.path.join(TOP, "tests", "claims.jsonl")):
        found, want = got(row), wanted(row)
        is_well = found[: len(want)] == want
        passed, failed = passed + is_well, failed + (not is_well)
        if not is_well:
            print(f"FAILED: {row['id']}: {found}, not {want}")
    print(f"{passed} rows of claims checked from Python, {failed} failed")
    return failed > 0 or passed < 100


if __name__ == "__main__":
    sys.exit(main())
