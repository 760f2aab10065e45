"""Runs the rows of crates/jwt_vectors/data that verify a token with a JSON Web Key or a key set through a verifier of the library for C, and
compares the claims or the refusal with what the row wants: those of the provider of all algorithms, and those of odd key sets. The last time
of an accepted token is not before the row's. JWT_LIBRARY names the library.

Where a verifier differs on purpose from the call of a row, it refuses the token with another kind, or accepts one for which the call
refuses a list of algorithms of several families: the key is skipped, or narrowed by its own alg, or the list has several families. If no
verifier is made, the row wants a refusal: one of an odd key set this refusal, and one of a key alone BadKey or NoUsableKey. The last line
counts."""
import argparse
import base64
import glob
import json
import os
import sys

from library import DATA, OK, SET, TEXT, Handle, add, info, rows, verified

ALGORITHMS = ["HS256", "HS384", "HS512", "RS256", "RS384", "RS512", "PS256", "PS384", "PS512", "ES256", "ES384", "EdDSA"]
# the family of an algorithm, by the beginning of its name
FAMILIES = {"HS": "oct", "RS": "RSA", "PS": "RSA", "ES": "EC", "Ed": "OKP"}


def given(row):
    """Returns the text of a row's keys, the options and the time, or None for a row of another call, key or provider."""
    if row["call"] == "decode_with_kept":
        return row["set"], {"algorithms": row["algorithms"]}, row["time"]
    if row.get("provider") != "StandardProvider" or not isinstance(row.get("token"), str) or not isinstance(row.get("validation"), dict):
        return None
    if row["call"] == "decode_with_set":
        return json.dumps(row["set"]), row["validation"], row["now"]
    if row["call"] == "decode" and "jwk" in row["key"]:
        return json.dumps(row["key"]["jwk"]), row["validation"], row["now"]
    return None


def source_of(row):
    """Returns how the keys of a row are read: a key set alone, or any text."""
    return SET if row["call"] == "decode_with_kept" and not row["id"].startswith("alone: ") else TEXT


def wanted(row):
    """Returns what a row wants, as claims or the name of a refusal."""
    want = row["want"]
    return {"ok": want["ok"]["claims"]} if "ok" in want and row["call"] != "decode_with_kept" else want


def kid_of(token):
    part = token.split(".")[0]
    try:
        return json.loads(base64.urlsafe_b64decode(part + "=" * (-len(part) % 4))).get("kid")
    except (AttributeError, ValueError):
        return None


def item_of(keys, row, text):
    """Returns the place of a row's key, or of the first item of the set that has the kid of the token's header, or None if there is none."""
    if row["call"] == "decode":
        return 0
    kid, items = kid_of(row["token"]), json.loads(text)["keys"]
    return next((at for at, it in enumerate(items) if isinstance(it, dict) and it.get("kid") == kid), None)


def differs(row, text, options):
    """Whether a verifier differs on purpose from the call of the row."""
    if row["call"] == "decode_with_kept":
        return False
    listed = options.get("algorithms") or []
    if not listed or len({FAMILIES.get(str(it)[:2]) for it in listed}) > 1:
        return True
    with Handle() as keys:
        if add(keys, TEXT, text.encode())[0] != OK:
            return True
        place = item_of(keys, row, text)
        # a key that verifies with none of the options' algorithms need not be the only one
        verifies = sum(info(keys, at).verifies for at in [place] if at is not None)
        return place is not None and not all(verifies >> ALGORITHMS.index(it) + 1 & 1 for it in listed if it in ALGORITHMS)


def is_wanted(row, got, made, is_other):
    """Whether a result is what the row wants, or one by which a verifier differs on purpose."""
    want = wanted(row)
    if not made and source_of(row) == TEXT:
        return want.get("err") in ("BadKey", "NoUsableKey") if row["call"] == "decode_with_kept" else "err" in want
    return got == want or (is_other and ("err" in got or want == {"err": "InvalidAlgorithm"}))


def main():
    argparse.ArgumentParser(description=__doc__).parse_args()
    passed = failed = different = 0
    for path in sorted(glob.glob(os.path.join(DATA, "*.jsonl"))):
        for row in rows(path):
            words = given(row)
            if words is None:
                continue
            text, options, now = words
            got, made, last = verified(source_of(row), text.encode(), json.dumps(options).encode(), row["token"].encode(), now)
            is_other = differs(row, text, options)
            different += is_other
            is_well = is_wanted(row, got, made, is_other) and (last >= now if "ok" in got else last == 0)
            passed, failed = passed + is_well, failed + (not is_well)
            if not is_well:
                print(f"FAILED: {row['id']}: {got}, accepted up to {last}, not {wanted(row)}")
    print(f"{passed} rows with a key or a set ({different} of them where a verifier differs), {failed} failed")
    return failed > 0 or passed < 3 * different


if __name__ == "__main__":
    sys.exit(main())
