"""The curves of the library by Python's integers, with the formulas of the standards for points by two coordinates."""
import functools


class Weierstrass:
    """A curve y^2 = x^3 - 3x + b (SP 800-186 section 3.2.1), with its base point and the base point's order. None is the point at infinity."""

    neutral = None

    def __init__(self, prime, b, base, order):
        self.prime, self.b, self.base, self.order = prime, b, base, order
        self.size = prime.bit_length() // 8

    def add(self, one, other):
        """Returns the sum of two points, by chords and tangents (SEC 1 section 2.2.1)."""
        if one is None or other is None:
            return one or other
        (x, y), (v, w) = one, other
        if x == v and y != w:
            return None
        slope = (3 * x * x - 3) * pow(2 * y, -1, self.prime) if one == other else (w - y) * pow(v - x, -1, self.prime)
        third = (slope * slope - x - v) % self.prime
        return third, (slope * (x - third) - y) % self.prime

    def point(self, text):
        """Returns the point of an uncompressed form in hexadecimal (SEC 1 section 2.3.3), which is empty at infinity."""
        return (int(text[2 : 2 + 2 * self.size], 16), int(text[2 + 2 * self.size :], 16)) if text else None

    def text(self, point):
        return f"04{point[0]:0{2 * self.size}x}{point[1]:0{2 * self.size}x}" if point else ""


class Edwards:
    """The curve -x^2 + y^2 = 1 + d x^2 y^2 of Ed25519 (RFC 8032 section 5.1)."""

    prime = 2**255 - 19
    d = -121665 * pow(121666, -1, prime) % prime
    neutral = (0, 1)
    base = (
        15112221349535400772501151409588531511454012693041857206046113283949847762202,
        46316835694926478169428394003475163141307993866256225615783033603165251855960,
    )

    def add(self, one, other):
        """Returns the sum of two points, by the formulas of RFC 8032 section 5.1.4."""
        (x, y), (v, w) = one, other
        product = self.d * x * v * y * w % self.prime
        return (
            (x * w + v * y) * pow(1 + product, -1, self.prime) % self.prime,
            (y * w + x * v) * pow(1 - product, -1, self.prime) % self.prime,
        )

    def point(self, text):
        """Returns the point of an encoding in hexadecimal (RFC 8032 section 5.1.3)."""
        sign, y = divmod(int.from_bytes(bytes.fromhex(text), "little"), 2**255)
        square = (y * y - 1) * pow(self.d * y * y + 1, -1, self.prime) % self.prime
        x = pow(square, (self.prime + 3) // 8, self.prime)
        x = x if x * x % self.prime == square else x * pow(2, (self.prime - 1) // 4, self.prime) % self.prime
        return (x if x & 1 == sign else -x % self.prime), y

    def text(self, point):
        return (point[1] | (point[0] & 1) << 255).to_bytes(32, "little").hex()


@functools.cache
def multiple(curve, number, point):
    """Returns the multiple of the point by a number, bit by bit."""
    found = curve.neutral
    for bit in f"{number:b}":
        found = curve.add(found, found)
        found = curve.add(found, point) if bit == "1" else found
    return found


ED25519 = Edwards()
P256 = Weierstrass(
    2**256 - 2**224 + 2**192 + 2**96 - 1,
    0x5AC635D8AA3A93E7B3EBBD55769886BC651D06B0CC53B0F63BCE3C3E27D2604B,
    (
        0x6B17D1F2E12C4247F8BCE6E563A440F277037D812DEB33A0F4A13945D898C296,
        0x4FE342E2FE1A7F9B8EE7EB4A7C0F9E162BCE33576B315ECECBB6406837BF51F5,
    ),
    0xFFFFFFFF00000000FFFFFFFFFFFFFFFFBCE6FAADA7179E84F3B9CAC2FC632551,
)
P384 = Weierstrass(
    2**384 - 2**128 - 2**96 + 2**32 - 1,
    0xB3312FA7E23EE7E4988E056BE3F82D19181D9C6EFE8141120314088F5013875AC656398D8A2ED19D2A85C8EDD3EC2AEF,
    (
        0xAA87CA22BE8B05378EB1C71EF320AD746E1D3B628BA79B9859F741E082542A385502F25DBF55296C3A545E3872760AB7,
        0x3617DE4A96262C6F5D9E98BF9292DC29F8F41DBD289A147CE9DA3113B5F0B8C00A60B1CE1D7E819D7A431D7C90EA0E5F,
    ),
    0xFFFFFFFFFFFFFFFFFFFFFFFFFFFFFFFFFFFFFFFFFFFFFFFFC7634D81F4372DDF581A0DB248B0A77AECEC196ACCC52973,
)
