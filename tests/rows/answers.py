"""Has rows of test vectors answered by other means than the library's, as the programs of this folder do."""
import argparse
import base64
import glob
import json
import os

TOP = os.path.dirname(os.path.dirname(os.path.dirname(os.path.realpath(__file__))))
# All rows.
PATHS = sorted(os.path.relpath(path, TOP) for path in glob.glob(f"{TOP}/crates/jwt_vectors/data/*.jsonl"))


ALGORITHMS = ["HS256", "HS384", "HS512", "RS256", "RS384", "RS512", "PS256", "PS384", "PS512", "ES256", "ES384", "EdDSA"]
# The family of an algorithm, by its first letters.
FAMILIES = {"HS": "Hmac", "RS": "Rsa", "PS": "Rsa", "ES": "Ec", "Ed": "Ed"}


class Float(float):
    """A number that readers of 64-bit integers take for a float."""


def integer(text):
    return int(text) if text != "-0" and -(2**63) <= int(text) < 2**64 else Float(text)


def no_constant(text):
    raise ValueError(text)


def json_of(raw):
    """Returns the value of JSON bytes (RFC 8259). Raises ValueError for other bytes, and for a string with half a surrogate pair."""
    value = json.loads(raw.decode(), parse_int=integer, parse_float=Float, parse_constant=no_constant)
    json.dumps(value, ensure_ascii=False).encode()
    return value


def is_list_of_texts(value):
    return isinstance(value, list) and all(isinstance(it, str) for it in value)


def octets_of(value):
    """Returns the bytes that a member of a row describes."""
    if isinstance(value, list):
        return b"".join(map(octets_of, value))
    if isinstance(value, str):
        return value.encode()
    if "hex" in value:
        return bytes.fromhex(value["hex"])
    if "base64url" in value:
        return base64.urlsafe_b64encode(octets_of(value["base64url"])).rstrip(b"=")
    return value["repeat"].encode() * value["times"]


def main(description, paths, answer):
    """Answers the rows of these files: `answer` returns the expected result of a row, or None for a call that it does not know. Returns
    the status."""
    parser = argparse.ArgumentParser(description=description, formatter_class=argparse.RawDescriptionHelpFormatter)
    parser.parse_args()
    count, other = 0, 0
    for path in paths:
        with open(f"{TOP}/{path}", encoding="utf-8") as file:
            rows = [json.loads(line) for line in file]
        for row in rows:
            found = answer(row)
            # true and 1 are the same in Python, and are not in JSON
            differs = found is not None and json.dumps(found, sort_keys=True) != json.dumps(row["want"], sort_keys=True)
            count, other = count + (found is not None), other + differs
            if differs:
                print(f"{path}: {row['id']}: {json.dumps(found)}")
    print(f"{count} rows, {other} differ")
    return 1 if other or not count else 0
