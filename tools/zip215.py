"""Whether an ed25519 signature is valid by ZIP 215, the rule of CometBFT from 0.37 on.

The equation is [8][s]B = [8]R + [8][k]A with s below the group's order. R and A may have parts of small order, and
encodings that aren't canonical.

Source: https://zips.z.cash/zip-0215; the curve and the formulas are those of RFC 8032, section 5.1. A call takes
some milliseconds, and its time depends on its arguments: use it for public values alone."""
import hashlib

PRIME = 2**255 - 19
ORDER = 2**252 + 27742317777372353535851937790883648493
D = -121665 * pow(121666, -1, PRIME) % PRIME
ROOT_OF_MINUS_ONE = pow(2, (PRIME - 1) // 4, PRIME)
IDENTITY = 0, 1, 1, 0
Point = tuple[int, int, int, int]  # in extended coordinates (X, Y, Z, T)


def decoded(data: bytes) -> Point | None:
    """The point of 32 bytes in extended coordinates (X, Y, Z, T), or none: any y is taken modulo the prime, and either sign of x = 0."""
    number = int.from_bytes(data, "little")
    sign, y = number >> 255, (number & 2**255 - 1) % PRIME
    u, v = (y * y - 1) % PRIME, (D * y * y + 1) % PRIME
    x = u * pow(v, 3, PRIME) * pow(u * pow(v, 7, PRIME), (PRIME - 5) // 8, PRIME) % PRIME
    if v * x * x % PRIME != u:
        x = x * ROOT_OF_MINUS_ONE % PRIME
    if v * x * x % PRIME != u:
        return None
    if x & 1 != sign:
        x = -x % PRIME
    return x, y, 1, x * y % PRIME


def add(one: Point, other: Point) -> Point:
    x1, y1, z1, t1 = one
    x2, y2, z2, t2 = other
    a, b = (y1 - x1) * (y2 - x2) % PRIME, (y1 + x1) * (y2 + x2) % PRIME
    c, d = 2 * t1 * t2 * D % PRIME, 2 * z1 * z2 % PRIME
    e, f, g, h = b - a, d - c, d + c, b + a
    return e * f % PRIME, g * h % PRIME, f * g % PRIME, e * h % PRIME


def negative(point: Point) -> Point:
    x, y, z, t = point
    return -x % PRIME, y, z, -t % PRIME


def times(number: int, point: Point) -> Point:
    total = IDENTITY
    while number:
        if number & 1:
            total = add(total, point)
        point, number = add(point, point), number >> 1
    return total


BASE = decoded((4 * pow(5, -1, PRIME) % PRIME).to_bytes(32, "little"))


def is_valid(key: bytes, message: bytes, signature: bytes) -> bool:
    """Whether a signature of 64 bytes over a message is valid by a key of 32 bytes."""
    if len(key) != 32 or len(signature) != 64:
        return False
    r, s = decoded(signature[:32]), int.from_bytes(signature[32:], "little")
    a = decoded(key)
    if r is None or a is None or s >= ORDER:
        return False
    k = int.from_bytes(hashlib.sha512(signature[:32] + key + message).digest(), "little") % ORDER
    difference = add(times(s, BASE), negative(add(r, times(k, a))))
    x, y, z, _ = times(8, difference)
    return x == 0 and y == z
