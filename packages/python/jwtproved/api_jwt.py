"""Names that PyJWT has in its module of this name."""
from ._api import PyJWT, decode, decode_complete, encode

__all__ = ["PyJWT", "decode", "decode_complete", "encode"]
