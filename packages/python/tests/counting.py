"""What the tests of the package share: they count, and set the clock that the package reads."""
import base64
import contextlib
import importlib
import json
import logging
import os
import sys

if "by-ctypes" in sys.argv:
    # as if the wheel were built without Python's headers
    sys.modules["jwtproved._fast"] = None

import jwtproved
from jwtproved import _api, _handles, _keys, _library, _verifier

TOP = os.path.dirname(os.path.dirname(os.path.dirname(os.path.dirname(os.path.abspath(__file__)))))
sys.path.append(f"{TOP}/tests")
import tokens

def peer():
    """Returns PyJWT, that of Debian if the environment has none, or None."""
    found = list(sys.path)
    sys.path.append("/usr/lib/python3/dist-packages")
    try:
        return importlib.import_module("jwt")
    except ImportError:
        return None
    finally:
        sys.path[:] = found


# the keys that a set skips are logged, and Python would write that to stderr
logging.getLogger("jwtproved").addHandler(logging.NullHandler())

SECRET = "0123456789abcdef0123456789abcdef"
NOW = 1700000000
HS = {"algorithms": ["HS256"]}

passed = failed = 0


def test(name, is_well):
    global passed, failed
    passed, failed = passed + bool(is_well), failed + (not is_well)
    if not is_well:
        print(f"FAILED: {name:.600}")


def outcome(call, *arguments, **options):
    try:
        return call(*arguments, **options)
    except Exception as error:
        return error


def raises(kind, call, *arguments, said="", **options):
    """Counts whether the call raises this very exception, whose text has what is said."""
    got = outcome(call, *arguments, **options)
    test(f"{got!r}, not {kind.__name__} with {said!r}: {arguments} {options}", type(got) is kind and said in str(got))


def gives(wanted, call, *arguments, **options):
    got = outcome(call, *arguments, **options)
    test(f"{got!r}, not {wanted!r}: {arguments} {options}", got == wanted)


def part(raw):
    return tokens.part(raw).decode()


def signed(claims, secret=SECRET, **header):
    return tokens.signed({"alg": "HS256", **header}, claims, secret if isinstance(secret, bytes) else secret.encode()).decode()


def changed(token):
    """Returns the token with another signature of the same length."""
    head, _, last = token.rpartition(".")
    raw = bytearray(base64.urlsafe_b64decode(last + "=="))
    raw[5] ^= 1
    return f"{head}.{part(raw)}"


def at(moment):
    """Sets the clock that the package reads."""
    _verifier._clock = lambda: moment


def forget():
    """Drops the keys and the verifiers that the package keeps."""
    _api._global._kept.clear()
    for it in (_verifier.checker_of, _keys._of_text, _keys._of_file, _keys._of_jwk, _keys._of_set, _keys._of_json):
        it.cache_clear()


@contextlib.contextmanager
def counted():
    """Gives the verifiers of the library that are made in the meantime, as algorithms and the bytes of prepared keys, and the tokens that
    verifiers are given."""
    made, given = [], []
    verifier, decode = _handles.Keys.verifier, _handles.Handles.decode

    def makes(keys, options, longest=0, prepared=0):
        made.append((json.loads(options)["algorithms"], prepared))
        return verifier(keys, options, longest, prepared)

    def decodes(handles, token, now):
        given.append(token)
        return decode(handles, token, now)

    _handles.Keys.verifier, _handles.Handles.decode = makes, decodes
    try:
        yield made, given
    finally:
        _handles.Keys.verifier, _handles.Handles.decode = verifier, decode


@contextlib.contextmanager
def replaced(name, call):
    """Has another call in the place of one of the library's, which it is given before the arguments."""
    real = getattr(_library.library, name)
    setattr(_library.library, name, lambda *arguments: call(real, *arguments))
    try:
        yield
    finally:
        setattr(_library.library, name, real)


def finish(what):
    """Prints the count as the last line, and ends the program."""
    by = "by ctypes" if sys.modules.get("jwtproved._fast") is None else "compiled"
    print(f"{passed} tests of {what} of {jwtproved.__name__}, {by}, {failed} failed")
    sys.exit(failed > 0 or passed == 0)
