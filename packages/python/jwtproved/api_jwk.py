"""Names that PyJWT has in its module of this name."""
from ._keys import PyJWK, PyJWKSet

__all__ = ["PyJWK", "PyJWKSet"]
