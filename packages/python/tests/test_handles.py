"""Tests that the installed package gives no handle of keys or of a verifier to two calls at once, and frees each, over the calls of
handles.c. It needs a C compiler. The last line counts."""
import ctypes
import gc
import importlib.util
import os
import subprocess
import tempfile
import threading

TOP = os.path.dirname(os.path.dirname(os.path.dirname(os.path.dirname(os.path.abspath(__file__)))))
# the calls that handles.c lacks are those of the library that the package has
REAL = os.environ.get("JWTPROVED_LIBRARY") or os.path.join(os.path.dirname(importlib.util.find_spec("jwtproved").origin), "libjwtproved.so")
with tempfile.TemporaryDirectory() as folder:
    made = f"{folder}/handles.so"
    words = [os.environ.get("CC", "cc"), "-O2", "-Wall", "-Wextra", "-shared", "-fPIC", f"-I{TOP}/packages/c/include", f"{TOP}/packages/python/tests/handles.c"]
    subprocess.run([*words, "-Wl,--no-as-needed", REAL, "-o", made], check=True)
    loaded = ctypes.CDLL(REAL)
    os.environ["JWTPROVED_LIBRARY"] = made
    from counting import finish, gives, outcome, raises, test

    from jwtproved import _handles, _library
    from jwtproved._status import Source
living = _library.library.living_handles
REFUSED = 59, 20, 7


def said(verifier, token):
    """Returns the claims, or the status, the number of the failed test and the place of the claim."""
    try:
        return verifier.decode(token, 5).rstrip()
    except _library.Refusal as refusal:
        return refusal.status, refusal.test, refusal.claim


def verifier_of(source, options=b"{}"):
    return _handles.Keys(source, b"a key").verifier(options)


def answers(source):
    verifier = verifier_of(source)
    gives('{"a":1}', said, verifier, b"ok")
    gives('{"a":1}', said, verifier, b"long")
    gives(REFUSED, said, verifier, b"other token")
    raises(MemoryError, said, verifier, b"12345")
    gives(REFUSED, said, verifier, b"x" * 20000)
    gives('{"a":1}', said, verifier, b"ok")
    for arguments in (("ok", 5), (b"ok", "5"), (b"ok",), (b"ok", 5, 5), (None, 5)):
        got = outcome(verifier.decode, *arguments)
        test(f"{got!r} of {arguments}", isinstance(got, (TypeError, ctypes.ArgumentError)))
    if _handles._compiled is not None:
        for arguments in ((), (1, 2, 3, b"ok", 5), (1, 2, 3, "ok", 5, True), (1, 2, "3", b"ok", 5, True), (1, 2, 3, b"ok", -1, True)):
            got = outcome(_handles._compiled, *arguments)
            test(f"{got!r} of {arguments}", isinstance(got, (TypeError, OverflowError)))
    for _ in range(3):
        got = outcome(verifier_of, source, b"[1]")
        test(f"{got!r} of a key that is not fit", type(got) is _library.Refusal and (got.status, got.test, got.claim) == (110, 0, 0))
    gives((True, False), lambda: (verifier.accepts("HS256", b"", b"ok"), verifier.accepts("HS256", b"", b"")))
    gives("a.b.c", verifier.attached, b"a.b", b"c")
    gives('{"a":1}', lambda: said(verifier.either(verifier_of(source)), b"ok"))


def at_once(work):
    """Calls it in 16 threads that begin at the same time."""
    begin = threading.Barrier(16)
    started = [threading.Thread(target=lambda: begin.wait() + 1 and work()) for _ in range(16)]
    for it in started:
        it.start()
    for it in started:
        it.join()


def threads(source):
    """In many threads each call has a handle of its own, or the program ends."""
    verifier, keys, wrong, made = verifier_of(source), _handles.Keys(source, b"a key"), [], []

    def work():
        for _ in range(40):
            got = [said(verifier, it) for it in (b"ok", b"other token", b"long")]
            if got != ['{"a":1}', REFUSED, '{"a":1}'] or not verifier.accepts("HS256", b"", b"ok") or verifier.attached(b"", b"") != "a.b.c":
                wrong.append(got)

    def make():
        for _ in range(10):
            either = verifier.either(keys.verifier(b"{}"))
            made.append((said(either, b"ok"), keys.text(), keys.signed(b"", b"")))

    at_once(work)
    test(f"threads by a {source.name}: {wrong}", not wrong)
    at_once(make)
    test(f"threads that make verifiers of one {source.name}", len(made) == 160 and set(made) == {('{"a":1}', b"{}", "a.b.c")})


for source_of_key in (Source.SECRET, Source.TEXT):
    answers(source_of_key)
    threads(source_of_key)
    # an exception and the frames of its calls refer to each other
    gc.collect()
    test(f"{living()} handles live on", living() == 0)
finish("handles")
