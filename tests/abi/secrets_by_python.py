"""Has the library for C read each secret of secrets.jsonl: as a secret, as a JSON Web Key, and as an item of two sets. JWT_LIBRARY names the
library. The last line counts."""
import argparse
import base64
import os

from library import OK, SECRET, TEXT, TOP, Handle, add, info, rows

ALL_ZERO_SECRET, KEY_AS_SECRET = 107, 113
PUBLIC = '{"kty":"OKP","crv":"Ed25519","x":"11qYAYKxCrfVS_7TyWQHOg7hcvPapiMlrwIaaPcHURo"}'


def alone(source, data):
    """Returns the status of a secret, or of a key that has it."""
    with Handle() as keys:
        status, items, kept = add(keys, source, data)
        return status if items == kept == (status == OK) else (status, items, kept)


def of_set(others, key):
    """Returns the reason for which the key is skipped that stands in a set after this many others and before one, or JWT_OK."""
    text = f'{{"keys":[{",".join([*[PUBLIC] * others, key, PUBLIC])}]}}'
    with Handle() as keys:
        counted = add(keys, TEXT, text.encode())
        status = info(keys, others).status
        return status if counted == (OK, others + 2, others + 1 + (status == OK)) else counted


def statuses(secret):
    """Returns the statuses of the secret, of the key that has it, and of that key in two sets."""
    part = base64.urlsafe_b64encode(secret).rstrip(b"=").decode()
    key = f'{{"kty":"oct","k":"{part}"}}'
    return [alone(SECRET, secret), alone(TEXT, key.encode()), of_set(0, key), of_set(1, key)]


def wanted(row, secret):
    if not row["refused"]:
        return OK
    return KEY_AS_SECRET if any(secret) else ALL_ZERO_SECRET


argparse.ArgumentParser(description=__doc__).parse_args()
passed = failed = 0
for it in rows(os.path.join(TOP, "tests", "secrets.jsonl")):
    secret_bytes = it["text"].encode() if "text" in it else bytes.fromhex(it["hex"])
    got, want = statuses(secret_bytes), wanted(it, secret_bytes)
    is_well = got == [want] * len(got)
    passed, failed = passed + is_well, failed + (not is_well)
    if not is_well:
        print(f"FAILED: {it['id']}: {got}, not {want}")
print(f"{passed} secrets checked from Python, {failed} failed")
raise SystemExit(failed > 0 or passed == 0)
