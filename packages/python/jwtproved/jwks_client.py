"""Names that PyJWT has in its module of this name."""
from ._client import PyJWKClient

__all__ = ["PyJWKClient"]
