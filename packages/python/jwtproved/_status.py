"""The numbers of jwtproved.h that this package names, without the prefix `JWT_`."""
import enum

# the place of iat among the claims that a refusal is about
CLAIM_IAT = 2**32 - 1


class Status(enum.IntEnum):
    """What a call returns."""

    OK = 0
    INVALID_TOKEN = 1
    INVALID_SIGNATURE = 2
    UNSUPPORTED_ALGORITHM = 7
    INVALID_KEY_FORMAT = 8
    EXPIRED_SIGNATURE = 9
    INVALID_ISSUER = 10
    INVALID_AUDIENCE = 11
    INVALID_SUBJECT = 12
    IMMATURE_SIGNATURE = 13
    INVALID_ALGORITHM = 14
    SIGNING = 17
    PROVIDER = 18
    BASE64 = 19
    JSON = 20
    OUT_OF_MEMORY = 22
    INVALID_CRIT = 24
    NO_KEY = 25
    MISSING_EXP = 40
    MISSING_NBF = 41
    MISSING_AUD = 42
    MISSING_ISS = 43
    MISSING_SUB = 44
    MISSING_CLAIM = 59
    MALFORMED_EXP = 60
    MALFORMED_NBF = 61
    MALFORMED_AUD = 62
    MALFORMED_ISS = 63
    MALFORMED_SUB = 64
    MALFORMED_CLAIM = 79
    BUFFER_TOO_SMALL = 100
    BAD_OPTIONS = 101
    BAD_HEADER = 104
    BAD_CLAIMS = 105
    BAD_KEY = 106
    ALL_ZERO_SECRET = 107
    NO_USABLE_KEY = 110
    TOKEN_TOO_LONG = 111
    KEY_AS_SECRET = 113
    NOT_FOR_SIGNATURES = 115
    IS_CERTIFICATE = 116
    UNFIT_KEY = 118


class Source(enum.IntEnum):
    """What the bytes of a key are."""

    TEXT = 1
    SECRET = 2
    SET = 4


class Of(enum.IntEnum):
    """What a number stands for."""

    OF_STATUS = 1
    OF_TEST = 2
    OF_ALGORITHM = 3


class Part(enum.IntEnum):
    """A part of a token."""

    HEADER = 1
    PAYLOAD = 2
