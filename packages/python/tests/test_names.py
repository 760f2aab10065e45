"""Tests the names of PyJWT's that the installed package has beside `encode` and `decode`, and what it answers as PyJWT does. The last line
counts. Expected values are those of RFC 7515 to RFC 7518, and of PyJWT 2.10.1's documentation."""
import base64
import hashlib
import hmac
import importlib
import inspect
import json
import subprocess
import sys
import warnings

from counting import HS, NOW, SECRET, at, changed, finish, gives, outcome, part, peer, raises, signed, test

import jwtproved as jwt
from jwtproved import algorithms, api_jws, utils

PEER = peer()

# of a token that no library signs
NONE = ".".join(map(part, (b'{"alg":"none"}', b'{"a":1,"exp":1}', b"")))
ES512 = ".".join(map(part, (b'{"alg":"ES512","kid":"k"}', b'{"a":1}', bytes(132))))


def modules():
    """Each module has the names of PyJWT's, and is loaded when it is asked for."""
    names = {
        "algorithms": "Algorithm ECAlgorithm HMACAlgorithm NoneAlgorithm OKPAlgorithm RSAAlgorithm RSAPSSAlgorithm get_default_algorithms"
        " has_crypto requires_cryptography",
        "api_jws": "PyJWS decode decode_complete encode get_algorithm_by_name get_unverified_header register_algorithm unregister_algorithm",
        "types": "HashlibHash JWKDict",
        "utils": "base64url_decode base64url_encode bytes_from_int bytes_to_number der_to_raw_signature force_bytes from_base64url_uint"
        " is_pem_format is_ssh_key number_to_bytes raw_to_der_signature to_base64url_uint",
        "warnings": "RemovedInPyjwt3Warning",
    }
    for module, its in names.items():
        found = getattr(jwt, module)
        missing = [it for it in its.split() if not hasattr(found, it)]
        test(f"{module} lacks {missing}", not missing and found is sys.modules[f"jwtproved.{module}"])
    missing = [it for it in jwt.__all__ if not hasattr(jwt, it)]
    test(f"the package lacks {missing}", not missing)
    raises(AttributeError, getattr, jwt, "nothing", said="nothing")
    lean = "import sys, jwtproved; sys.exit('cryptography' in sys.modules or 'jwtproved.algorithms' in sys.modules)"
    test("cryptography is not loaded by itself", subprocess.run([sys.executable, "-c", lean]).returncode == 0)


# what no program makes: PyJWKClient keeps its sets in it
NOT_ITS = {"PyJWTSetWithTimestamp"}


def parameters(call):
    return list(inspect.signature(call).parameters)


def its_names(of):
    """Yields each class and call that a module or a class of PyJWT defines, by its name."""
    for name, it in vars(of).items():
        call = it.__func__ if isinstance(it, (staticmethod, classmethod)) else it
        if (inspect.isfunction(call) or inspect.isclass(call)) and call.__module__.startswith("jwt.") and (not name.startswith("_") or name == "__init__"):
            yield name, call


def arguments_are_its():
    """Each class and call of PyJWT is here by its name, with its arguments in its order, as far as the version has them."""
    if PEER is None:
        return
    for module in ("api_jwk", "api_jws", "api_jwt", "algorithms", "jwks_client", "utils"):
        theirs, ours = (importlib.import_module(f"{of.__name__}.{module}") for of in (PEER, jwt))
        for name, it in its_names(theirs):
            if it.__module__ == theirs.__name__ and name not in NOT_ITS:
                same_arguments(f"{module}.{name}", it, getattr(ours, name, None))
    missing = [it for it in PEER.__all__ if not hasattr(jwt, it)]
    test(f"the package lacks {missing} of PyJWT {PEER.__version__}", not missing)
    for name in vars(PEER.exceptions):
        if inspect.isclass(getattr(PEER.exceptions, name)):
            its, own = ([it.__name__ for it in getattr(of.exceptions, name).__mro__] for of in (PEER, jwt))
            test(f"the bases of {name} are {own}, not {its}", its == own)


def same_arguments(name, theirs, ours):
    test(f"no {name}", ours is not None)
    if ours is None:
        return
    if inspect.isclass(theirs):
        for inner, it in its_names(theirs):
            same_arguments(f"{name}.{inner}", it, getattr(ours, inner, None))
        return
    wanted, found = parameters(theirs), parameters(ours)
    test(f"{name} has {found}, not {wanted}", [it for it in wanted if it in found] == wanted)


def tokens_of_bytes():
    """PyJWS signs and verifies any bytes."""
    jws = jwt.PyJWS()
    for payload in (b"", b"hello", b"\xff\0", b"{}", b"[1]", b"a.b", bytes(5000)):
        token = jws.encode(payload, SECRET, "HS256", {"kid": "a"})
        message = ".".join(map(part, (b'{"alg":"HS256","kid":"a","typ":"JWT"}', payload)))
        mac = hmac.digest(SECRET.encode(), message.encode(), "sha256")
        gives(f"{message}.{part(mac)}", lambda token=token: token)
        gives(payload, jws.decode, token, SECRET, ["HS256"])
        whole = {"payload": payload, "header": {"alg": "HS256", "kid": "a", "typ": "JWT"}, "signature": mac}
        gives(whole, jws.decode_complete, token, SECRET, ["HS256"])
        raises(jwt.InvalidSignatureError, jws.decode, changed(token), SECRET, ["HS256"])
        raises(jwt.InvalidSignatureError, jws.decode, token, "another secret", ["HS256"])
        raises(jwt.InvalidAlgorithmError, jws.decode, token, SECRET, ["HS512"])
        raises(jwt.DecodeError, jws.decode, token, SECRET, said="algorithms")
        gives(payload, jws.decode, changed(token), options={"verify_signature": False})
    for it in (NONE, ES512):
        raises(jwt.InvalidAlgorithmError, jws.decode, it, SECRET, ["HS256"], said="not allowed")
        raises(jwt.InvalidAlgorithmError, jws.decode, it, SECRET, ["none", "ES512"], said="not supported")
        gives(json.loads(base64.urlsafe_b64decode(it.split(".")[1] + "==")), lambda it=it: json.loads(jws.decode(it, options={"verify_signature": False})))
    for crit in ({"crit": ["x"], "x": 1}, {"crit": ["b64"]}, {"crit": []}, {"crit": "b64", "b64": True}, {"crit": ["b64", "b64"], "b64": True}):
        got = outcome(jws.decode, signed({}, **crit), SECRET, ["HS256"])
        test(f"{crit}: {got!r}", type(got) is jwt.DecodeError and "crit" in str(got))
    gives(b"{}", jws.decode, signed({}, crit=["b64"], b64=True), SECRET, ["HS256"])
    raises(jwt.DecodeError, jws.decode, signed({}, kid=5), SECRET, ["HS256"], said="header")
    for it in (None, 5, "", "a.b", "a.b.c.d"):
        raises(jwt.DecodeError, jws.decode, it, SECRET, ["HS256"])


def detached():
    """A payload that is not in the token has to be given (RFC 7797)."""
    jws = jwt.PyJWS()
    token = jws.encode(b"$02 hello", SECRET, "HS256", is_payload_detached=True)
    head, payload, _ = token.split(".")
    gives({"alg": "HS256", "b64": False, "typ": "JWT"}, jws.get_unverified_header, token)
    test("the payload is not in it", payload == "")
    gives(b"$02 hello", jws.decode, token, SECRET, ["HS256"], detached_payload=b"$02 hello")
    raises(jwt.InvalidSignatureError, jws.decode, token, SECRET, ["HS256"], detached_payload=b"$03 hello")
    raises(jwt.DecodeError, jws.decode, token, SECRET, ["HS256"], said="detached_payload")
    raises(jwt.InvalidSignatureError, jwt.decode, token, SECRET, ["HS256"])
    mac = part(hmac.digest(SECRET.encode(), f"{head}.".encode() + b"a.b", "sha256"))
    gives(b"a.b", jws.decode, f"{head}..{mac}", SECRET, ["HS256"], detached_payload=b"a.b")
    raises(jwt.InvalidSignatureError, jws.decode, f"{head}..{mac}", SECRET, ["HS256"], detached_payload=b"a.c")
    # RFC 7797 section 4.2, by its key
    head, payload = "eyJhbGciOiJIUzI1NiIsImI2NCI6ZmFsc2UsImNyaXQiOlsiYjY0Il19", b"$.02"
    key = {"kty": "oct", "k": "AyM1SysPpbyDfgZld3umj1qzKObwVMkoqQ-EstJQLr_T-1qS0gZH75aKtMN3Yj0iPS4hcgUuTwjAzZr1Z9CAow"}
    for it in (jwt.PyJWK(key), key):
        gives(payload, jws.decode, f"{head}..A5dxf2s96_n5FLueVuW1Z_vh161FwXZC4YLPff6dmDY", it, ["HS256"], detached_payload=payload)
    raises(jwt.DecodeError, jwt.decode, f"{head}.e30.A5dxf2s96_n5FLueVuW1Z_vh161FwXZC4YLPff6dmDY", key, ["HS256"], said="crit")
    raises(jwt.DecodeError, jws.decode, signed({}, b64=0), SECRET, ["HS256"], said="b64")


def options_of_jws():
    """An option is one of those of `decode`, and True or False: a setting that is missing turns nothing off."""
    at(NOW)
    token, wrong = jwt.PyJWS().encode(b"a", SECRET, "HS256"), "another secret"
    for it in (None, 0, 1, "", "no", [], "False"):
        for call in (jwt.PyJWS().decode, jwt.PyJWS().decode_complete, jwt.decode, jwt.decode_complete):
            raises(TypeError, call, token, wrong, **HS, options={"verify_signature": it}, said="verify_signature must be True or False")
        for made in (jwt.PyJWS, jwt.PyJWT):
            raises(TypeError, made, options={"verify_signature": it}, said="verify_signature must be True or False")
        changes = jwt.PyJWS()
        changes.options["verify_signature"] = it
        raises(TypeError, changes.decode, token, wrong, **HS, said="verify_signature must be True or False")
    for options in ({"verfy_signature": True}, {"algorithms": ["HS256"]}, {5: False}):
        raises(TypeError, jwt.PyJWS, options=options, said="is not an option")
        raises(TypeError, jwt.PyJWS().decode, token, SECRET, **HS, options=options, said="is not an option")
    for it in ([], "verify_signature", 5):
        raises(TypeError, jwt.PyJWS, options=it, said="options")
        raises(TypeError, jwt.PyJWS().decode, token, SECRET, **HS, options=it, said="options")
    gives(b"a", jwt.PyJWS(options={"verify_signature": False}).decode, token, wrong, **HS)
    gives(b"a", jwt.PyJWS().decode, token, wrong, **HS, options={"verify_signature": False})
    raises(jwt.InvalidSignatureError, jwt.PyJWS().decode, token, wrong, **HS, options={"verify_signature": True})
    raises(jwt.InvalidSignatureError, jwt.PyJWS(options={"verify_signature": False}).decode, token, wrong, **HS, options={"verify_signature": True})


def algorithms_of_jws():
    jws = jwt.PyJWS(algorithms=["HS256"])
    gives(["HS256"], jws.get_algorithms)
    raises(jwt.InvalidAlgorithmError, jws.decode, jwt.encode({}, SECRET, "HS384"), SECRET, ["HS384"], said="supported")
    raises(NotImplementedError, jws.encode, b"", SECRET, "HS384")
    jws.unregister_algorithm("HS256")
    raises(NotImplementedError, jws.encode, b"", SECRET)
    raises(KeyError, jws.unregister_algorithm, "HS256")
    made = algorithms.HMACAlgorithm(hashlib.sha256)
    raises(ValueError, jwt.register_algorithm, "HS256", made)
    raises(TypeError, jwt.register_algorithm, "HS1", object())
    raises(NotImplementedError, jwt.register_algorithm, "HS1", made, said="HS1")
    raises(NotImplementedError, jwt.unregister_algorithm, "HS256", said="HS256")
    raises(NotImplementedError, api_jws.get_algorithm_by_name, "HS1")
    found = algorithms.get_default_algorithms()
    test("HS256", type(found["HS256"]) is algorithms.HMACAlgorithm and type(found["none"]) is algorithms.NoneAlgorithm)
    test("none verifies nothing", found["none"].verify(b"", None, b"") is False and found["none"].sign(b"a", None) == b"")
    raises(jwt.InvalidKeyError, found["none"].prepare_key, "a")
    gives(hashlib.sha256(b"abc").digest(), found["HS256"].compute_hash_digest, b"abc")
    raises(NotImplementedError, found["none"].compute_hash_digest, b"abc")
    for message in (b"", b"any.bytes\0\xff", bytes(5000)):
        mac = hmac.digest(SECRET.encode(), message, "sha256")
        gives(mac, found["HS256"].sign, message, SECRET.encode())
        gives(True, found["HS256"].verify, message, SECRET.encode(), mac)
        gives(False, found["HS256"].verify, message, SECRET.encode(), bytes(32))
    for it in ("", "-----BEGIN PUBLIC KEY-----\nAA==\n-----END PUBLIC KEY-----\n", "ssh-rsa AAAA"):
        raises(jwt.InvalidKeyError, found["HS256"].prepare_key, it)
    raises(TypeError, found["HS256"].prepare_key, None)
    gives({"kty": "oct", "k": part(b"abc")}, algorithms.HMACAlgorithm.to_jwk, "abc", as_dict=True)
    gives(b"abc", algorithms.HMACAlgorithm.from_jwk, algorithms.HMACAlgorithm.to_jwk(b"abc"))
    for it in ("[", "[]", 5, '{"kty":"RSA"}', {"kty": "oct"}, {"kty": "oct", "k": "a b"}):
        raises(jwt.InvalidKeyError, algorithms.HMACAlgorithm.from_jwk, it)
    test("PyJWK.Algorithm", jwt.PyJWK({"kty": "oct", "k": part(SECRET.encode())}).Algorithm.name == "HS256")


def texts_and_numbers():
    # RFC 7515 appendix C, RFC 7518 section 2
    gives(b"A-z_4ME", utils.base64url_encode, bytes([3, 236, 255, 224, 193]))
    for it in ("A-z_4ME", b"A-z_4ME", "A-z_4ME="):
        gives(bytes([3, 236, 255, 224, 193]), utils.base64url_decode, it)
    for it in ("A", "A b=", "+/==", "\n"):
        got = outcome(utils.base64url_decode, it)
        test(f"{it!r}: {got!r}", isinstance(got, ValueError))
    gives(b"AQAB", utils.to_base64url_uint, 65537)
    gives(b"AA", utils.to_base64url_uint, 0)
    gives(65537, utils.from_base64url_uint, "AQAB")
    raises(ValueError, utils.to_base64url_uint, -1)
    gives(b"\0\0\1", utils.number_to_bytes, 1, 3)
    gives(258, utils.bytes_to_number, b"\1\2")
    raises(TypeError, utils.force_bytes, 5)


class Curve:
    name, key_size = "secp256r1", 256


def signatures_in_der():
    # two numbers, 1 and 128 (X.690 section 8.3)
    der, raw = bytes.fromhex("300702010102020080"), (1).to_bytes(32, "big") + (128).to_bytes(32, "big")
    gives(raw, utils.der_to_raw_signature, der, Curve)
    gives(der, utils.raw_to_der_signature, raw, Curve)
    raises(ValueError, utils.raw_to_der_signature, raw[1:], Curve)
    raises(ValueError, utils.raw_to_der_signature, raw, type("Other", (), {"name": "secp256k1", "key_size": 256}))


def unverified():
    """Of a token of any algorithm the header and the claims are read, and nothing is decided."""
    unchecked = {"verify_signature": False}
    at(NOW)
    gives({"alg": "none"}, jwt.get_unverified_header, NONE)
    gives({"alg": "ES512", "kid": "k"}, jwt.get_unverified_header, ES512)
    gives({"a": 1, "exp": 1}, jwt.decode, NONE, options=unchecked)
    gives({"a": 1}, jwt.decode, ES512, options=unchecked)
    gives({"payload": {"a": 1}, "header": {"alg": "ES512", "kid": "k"}, "signature": bytes(132)}, jwt.decode_complete, ES512, options=unchecked)
    raises(jwt.ExpiredSignatureError, jwt.decode, NONE, options={**unchecked, "verify_exp": True})
    raises(jwt.MissingRequiredClaimError, jwt.decode, ES512, options={**unchecked, "require": ["exp"]})
    for it, said in (("a", "segments"), ("a.b", "segments"), (".b.c", "header"), ("!.b.c", "header padding"), (part(b"[]") + ".e30.", "object")):
        raises(jwt.DecodeError, jwt.get_unverified_header, it, said=said)
        raises(jwt.DecodeError, jwt.decode, it, options=unchecked, said=said)
    raises(jwt.InvalidTokenError, jwt.get_unverified_header, signed({}, kid=5), said="Key ID")
    gives({"alg": "HS256", "kid": None}, jwt.get_unverified_header, signed({}, kid=None))
    head, payload, last = ES512.split(".")
    for token, said in (
        (f"{head}.!.{last}", "payload padding"), (f"{head}.{payload}=.{last}", "payload padding"), (f"{head}.{part(b'[]')}.{last}", "payload string"),
        (f"{head}..{last}", "payload string"), (f"{head}.{payload}.!", "crypto padding"), (f"{head}.{payload}.{last}=", "crypto padding"),
        (f"{head}.{payload}.AB", "crypto padding"), (f"{head}.{payload}.A", "crypto padding"), (f"{head}.{payload}.++++", "crypto padding"),
    ):
        for call in (jwt.decode, jwt.decode_complete):
            raises(jwt.DecodeError, call, token, options=unchecked, said=said)
    # the options name the checks of the claims
    for claims, options, kind in (
        ({"exp": NOW + 1, "aud": "web"}, {"verify_exp": True}, None),
        ({"exp": "5"}, {"verify_exp": True}, jwt.DecodeError),
        ({"nbf": NOW + 1}, {"verify_nbf": True}, jwt.ImmatureSignatureError),
        ({"iat": NOW + 1}, {"verify_iat": True}, jwt.ImmatureSignatureError),
        ({"aud": "web"}, {"verify_aud": True}, jwt.InvalidAudienceError),
        ({"sub": 5}, {"verify_sub": True}, jwt.InvalidSubjectError),
        ({}, {"require": ["aud"]}, jwt.MissingRequiredClaimError),
    ):
        token = ".".join((head, part(json.dumps(claims).encode()), last))
        got = outcome(jwt.decode, token, options={**unchecked, **options})
        test(f"{claims} by {options}: {got!r}", got == claims if kind is None else type(got) is kind and got.failed_test is None)


def warned(call, *arguments, **options):
    """Returns the result of a call, and the kinds of the warnings that it gives."""
    with warnings.catch_warnings(record=True) as seen:
        warnings.simplefilter("always")
        got = outcome(call, *arguments, **options)
    return got, [(it.category.__name__, it.filename.rpartition("/")[2]) for it in seen]


def what_does_nothing():
    """An argument that does nothing is warned of, where it stands."""
    at(NOW)
    # where the call is made
    token, here = signed({}), "counting.py"
    gives(({}, [("DeprecationWarning", here)]), warned, jwt.decode, token, SECRET, ["HS256"], verify=False)
    gives(({}, []), warned, jwt.decode, token, SECRET, ["HS256"], verify=True)
    for _ in range(3):
        gives(({}, [("RemovedInPyjwt3Warning", here)]), warned, jwt.decode, token, SECRET, ["HS256"], {"verify_at_hash": False})
    raises(jwt.InvalidSignatureError, jwt.decode, changed(token), SECRET, ["HS256"], verify=False)
    for name in ("verify_at_hash", "enforce_minimum_key_length", "require_exp"):
        raises(TypeError, jwt.decode, token, SECRET, ["HS256"], {name: True}, said=name)


# keywords that `decode` does not have, and what its error says of each
UNKNOWN = {
    **{name: "'issuer'" for name in ("isuer", "isser", "issuers", "Issuer", "iss")},
    **{name: "'audience'" for name in ("audiance", "audiences", "aud")},
    **{name: "'leeway'" for name in ("leway", "leeways")},
    **{name: "'algorithms'" for name in ("algorithm", "algoritms", "alg")},
    **{"sub": "'subject'", "subjct": "'subject'", "option": "'options'", "crit": "'understood_crit'"},
    **{"require": "options={'require': ..}", "required": "options={'require': ..}", "verify_exp": "options={'verify_exp': ..}"},
    **{"verfy_aud": "options={'verify_aud': ..}", "jti": "options={'verify_jti': ..}", "now": "'now' of Verifier.decode"},
    **{name: f"{name!r} of Verifier" for name in ("max_token_length", "reject_tokens_expiring_in_less_than")},
    "nonce": "compare the claim",
}


def unknown_keywords():
    """An unknown keyword is an error that names the nearest argument, or all of them."""
    at(NOW)
    token = signed({"iss": "https://evil"})
    calls = (jwt.decode, jwt.decode_complete, jwt.PyJWT().decode, lambda it, key, **more: jwt.PyJWS().decode(it, key, **more))
    for call in calls:
        for name, said in UNKNOWN.items():
            raises(TypeError, call, token, SECRET, said=f"unexpected keyword argument {name!r}; ", **HS, **{name: "a"})
            raises(TypeError, call, token, SECRET, said=said if call in calls[:3] else name, **HS, **{name: "a"})
        raises(TypeError, call, token, SECRET, said="'anything'; the arguments are jwt, key, algorithms, options, ", **HS, anything=5)
    for call, arguments, said in (
        (jwt.encode, {"payload": {}, "key": SECRET, "algoritm": "HS256"}, "encode() got an unexpected keyword argument 'algoritm'; did you mean 'algorithm'?"),
        (jwt.PyJWS().encode, {"payload": b"", "key": SECRET, "header": {}}, "did you mean 'headers'?"),
        (jwt.Verifier, {"key": SECRET, **HS, "isuer": "a"}, "Verifier() got an unexpected keyword argument 'isuer'; did you mean 'issuer'?"),
        (jwt.decode_by_verdict, {"token": token, "part": jwt.signed_part(token), "verdict": True, **HS, "isuer": "a"}, "did you mean 'issuer'?"),
        (jwt.PyJWKClient, {"uri": "https://login.example/keys", "lifspan": 5}, "did you mean 'lifespan'?"),
    ):
        raises(TypeError, call, said=said, **arguments)


def texts():
    """The exceptions have the texts of PyJWT's."""
    at(NOW)
    for claims, arguments, text in (
        ({}, {"audience": "a"}, 'Token is missing the "aud" claim'),
        ({"aud": "b"}, {"audience": "a"}, "Audience doesn't match"),
        ({"aud": "b"}, {}, "Invalid audience"),
        ({"iss": "b"}, {"issuer": "a"}, "Invalid issuer"),
        ({"exp": 1}, {}, "Signature has expired"),
        ({"nbf": NOW + 1}, {}, "The token is not yet valid (nbf)"),
        ({"iat": NOW + 1}, {}, "The token is not yet valid (iat)"),
        ({"sub": 5}, {}, "Subject must be a string"),
        ({"jti": 5}, {}, "JWT ID must be a string"),
        ([], {}, "Invalid payload string: must be a json object"),
    ):
        gives(text, lambda claims=claims, arguments=arguments: str(outcome(jwt.decode, signed(claims), SECRET, **HS, **arguments)))
    for token, text in (
        ("a.b", "Not enough segments"),
        ("!.e30.AA", "Invalid header padding"),
        (signed({}) + "!", "Invalid crypto padding"),
        (changed(signed({})), "Signature verification failed"),
        (signed({}, alg="HS384"), "The specified alg value is not allowed"),
    ):
        gives(text, lambda token=token: str(outcome(jwt.decode, token, SECRET, **HS)))


AS_JWT = """
import jwtproved.as_jwt
import jwt, jwtproved, sys
import jwt.algorithms, jwt.api_jws, jwt.exceptions, jwt.jwks_client, jwt.utils, jwt.warnings, jwt.types
from jwt.api_jwt import PyJWT
from jwt.api_jwk import PyJWK
from jwt import PyJWS, ExpiredSignatureError, algorithms
assert jwt.decode is jwt.api_jwt.decode and PyJWT is jwt.PyJWT and PyJWK is jwtproved.PyJWK and PyJWS is jwt.PyJWS is jwt.api_jws.PyJWS
assert issubclass(PyJWT, jwtproved.PyJWT) and issubclass(PyJWS, jwtproved.PyJWS) and jwt.api_jws is sys.modules["jwt.api_jws"]
assert jwt.exceptions is jwtproved.exceptions and algorithms is jwtproved.algorithms and jwt.__version__ == "2.10.1"
assert jwtproved.utils.__spec__.name == "jwtproved.utils" and jwt.__name__ == "jwt"
assert [it for it in sys.modules if it.startswith("jwt.") and sys.modules[it].__name__ == it] == ["jwt.api_jwt", "jwt.api_jws"]
try:
    import jwt.nothing
except ModuleNotFoundError as error:
    assert "jwt.nothing" in str(error)
import jwtproved.as_jwt
assert jwt.decode(jwt.encode({}, "secret", "HS512"), "secret", algorithms="HS512") == {} == jwt.decode(jwt.encode({}, "secret"), "secret", "HS256")
for name, kind in (("HS384", jwt.InvalidAlgorithmError), ("HS256,HS512", TypeError), ("", TypeError), ("HS25", TypeError), ("none", TypeError)):
    try:
        jwt.decode(jwt.encode({}, "secret"), "secret", algorithms=name)
    except kind:
        continue
    raise AssertionError(name)

# what programs over PyJWT pass is taken by the calls of jwt alone
import warnings
token, own = jwt.encode({}, "secret"), (jwtproved.decode, jwtproved.decode_complete, jwtproved.PyJWT().decode, jwtproved.PyJWS().decode)
its = jwt.decode, jwt.decode_complete, jwt.api_jwt.decode, jwt.PyJWT().decode, jwt.api_jwt.PyJWT({}).decode, jwt.PyJWS().decode, jwt.api_jws.decode
for call in (*own, *its, jwtproved.api_jwt.decode, jwtproved.api_jws.decode):
    for more in ({"algorithms": "HS256"}, {"algorithms": ["HS256"], "foo": 1}):
        with warnings.catch_warnings(record=True) as seen:
            warnings.simplefilter("always")
            try:
                got = call(token, "secret", **more)
            except TypeError:
                got = TypeError
        assert (got is TypeError) == (call not in its), (call, more)
        assert [it.category.__name__ for it in seen] == ["RemovedInPyjwt3Warning"] * ("foo" in more and call in its), (call, seen)
        assert all(it.filename == "<string>" for it in seen)
assert jwt.decode(jwt.encode({"iat": 5.9}, "secret"), "secret", ["HS256"]) == {"iat": 5}
try:
    jwtproved.encode({"iat": 5.9}, "secret")
    raise AssertionError
except TypeError as error:
    assert "int()" in str(error), error
for call in its:
    for name in ("isuer", "iss", "aud", "sub", "audiance", "leway", "algorithm", "require", "verify_exp", "now", "nonce", "max_token_length"):
        try:
            call(token, "secret", ["HS256"], **{name: "a"})
        except TypeError as error:
            assert f"unexpected keyword argument {name!r}; " in str(error), error
            continue
        raise AssertionError((call, name))
"""


def in_its_place():
    """`import jwtproved.as_jwt` answers `import jwt` in the process, and refuses beside another package of this name."""
    for program, status in ((AS_JWT, 0), ("import sys, types; sys.modules['jwt'] = types.ModuleType('jwt')\nimport jwtproved.as_jwt", 1)):
        ran = subprocess.run([sys.executable, "-c", program], capture_output=True, text=True)
        test(f"as jwt: {ran.stderr}", ran.returncode == status and (status == 0) == (ran.stderr == ""))
        test(f"as jwt: {ran.stderr}", status == 0 or "ImportError: jwt was imported already" in ran.stderr)
    test("it is not in place by itself", jwt.__name__ == "jwtproved")


for step in (modules, arguments_are_its, tokens_of_bytes, detached, options_of_jws, algorithms_of_jws, texts_and_numbers, signatures_in_der, unverified):
    step()
for step in (what_does_nothing, unknown_keywords, texts, in_its_place):
    step()
finish("names")
