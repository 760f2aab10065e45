"""Answers each later `import jwt`, and of its modules, with this package, in the whole process. Import it first in a program:

    import jwtproved.as_jwt

Raises ImportError if another package of this name was imported already. The classes and calls of `jwt` also take what programs over PyJWT
pass: the name of one algorithm, as in `algorithms="RS256"`, is a list of it, a time to sign may be a float, which is cut to whole seconds,
and a keyword that is near no argument is only warned of. The calls of `jwtproved` do not change.
"""
import importlib
import importlib.abc
import importlib.machinery
import importlib.util
import sys
from types import ModuleType
from typing import Any

import jwtproved

# of the interface, which programs compare
VERSION = "2.10.1"


class PyJWT(jwtproved.PyJWT):
    __doc__ = jwtproved.PyJWT.__doc__
    _is_lenient = True


def _calls_of(made: Any, *names: str) -> dict[str, Any]:
    return {type(made).__name__: type(made), **{name: getattr(made, name) for name in names}}


# what the module jwt.api_jwt, and jwt, have in place of the names of jwtproved.api_jwt
_OF_API_JWT = _calls_of(PyJWT(), "decode", "decode_complete", "encode")


def _of_api_jws() -> dict[str, Any]:
    """Returns what the module jwt.api_jws has in place of the names of jwtproved.api_jws."""
    from jwtproved import api_jws

    class PyJWS(api_jws.PyJWS):
        __doc__ = api_jws.PyJWS.__doc__
        _is_lenient = True

    return _calls_of(PyJWS(), "decode", "decode_complete", "encode", "get_algorithm_by_name")


_OWN = {"jwt.api_jwt": lambda: _OF_API_JWT, "jwt.api_jws": _of_api_jws}


class _Finder(importlib.abc.MetaPathFinder, importlib.abc.Loader):
    """Finds the modules of this package by the names of PyJWT's."""

    def find_spec(self, fullname: str, path: Any, target: Any = None) -> importlib.machinery.ModuleSpec | None:
        own = f"{jwtproved.__name__}{fullname[3:]}"
        if not fullname.startswith("jwt.") or importlib.util.find_spec(own) is None:
            return None
        return importlib.machinery.ModuleSpec(fullname, self)

    def create_module(self, spec: importlib.machinery.ModuleSpec) -> ModuleType:
        found = importlib.import_module(f"{jwtproved.__name__}{spec.name[3:]}")
        if spec.name in _OWN:
            made = ModuleType(spec.name, found.__doc__)
            vars(made).update(_public(found), **_OWN[spec.name]())
            return made
        spec.loader_state = found.__spec__
        return found

    def exec_module(self, module: ModuleType) -> None:
        # it is a module of this package, under another name
        if module.__spec__ is not None and module.__spec__.loader_state is not None:
            module.__spec__ = module.__spec__.loader_state


def _public(module: ModuleType) -> dict[str, Any]:
    return {name: value for name, value in vars(module).items() if not name.startswith("_") or name == "__all__"}


def _later(name: str) -> Any:
    """Returns a module that is loaded when a program uses it, or a name of such a module."""
    if name in jwtproved._MODULES:
        return importlib.import_module(f"jwt.{name}")
    if name in jwtproved._OF_API_JWS:
        return getattr(importlib.import_module("jwt.api_jws"), name)
    raise AttributeError(f"module 'jwt' has no attribute {name!r}")


def _package() -> ModuleType:
    """Returns the package that is imported as jwt."""
    made = ModuleType("jwt", jwtproved.__doc__)
    made.__spec__ = importlib.machinery.ModuleSpec("jwt", None, is_package=True)
    made.__path__, made.__package__ = [], "jwt"
    loaded = {name: value for name, value in _public(jwtproved).items() if name not in jwtproved._MODULES}
    vars(made).update(loaded, **_OF_API_JWT, __getattr__=_later, __version__=VERSION)
    return made


if "jwt" in sys.modules:
    raise ImportError(f"jwt was imported already, from {getattr(sys.modules['jwt'], '__file__', '?')}: import jwtproved.as_jwt before it")
sys.meta_path.insert(0, _Finder())
sys.modules["jwt"] = _package()
# `import jwt` alone has jwt.api_jwt
importlib.import_module("jwt.api_jwt")
