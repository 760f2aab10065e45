"""Tokens for tests, as Python's own base64, JSON and HMAC make them."""
import base64
import hmac
import json


def part(raw):
    return base64.urlsafe_b64encode(raw).rstrip(b"=")


def signed(header, claims, secret, digest="sha256"):
    """Returns the token of a header and claims, each a JSON value or the bytes of one."""
    message = b".".join(part(it if isinstance(it, bytes) else json.dumps(it).encode()) for it in (header, claims))
    return message + b"." + part(hmac.digest(secret, message, digest))
