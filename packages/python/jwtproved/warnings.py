"""Names that PyJWT has in its module of this name."""


class RemovedInPyjwt3Warning(DeprecationWarning):
    """An argument that does nothing, and that later versions of PyJWT do not take."""


__all__ = ["RemovedInPyjwt3Warning"]
