"""The lines that example/run must print, from integer square roots alone: the nearest 53-digit whole number to the root."""
import math
import struct
from fractions import Fraction


def nearest_root(x: Fraction) -> float:
    """The float nearest to the root of x > 0, by whole-number squares; exact halves do not occur."""
    shift = 0
    while x * Fraction(4) ** shift < 2 ** 104:
        shift += 1
    while x * Fraction(4) ** shift >= 2 ** 106:
        shift -= 1
    radicand = x * Fraction(4) ** shift
    q = math.isqrt(radicand.numerator // radicand.denominator)
    if Fraction(2 * q + 1) ** 2 < 4 * radicand:
        q += 1
    return math.ldexp(q, -shift)


def show(what: str, value: float) -> None:
    bits = struct.unpack(">Q", struct.pack(">d", value))[0]
    print(f"{what:<24} {value:.17g}  {bits:016X}")


show("root of 2", nearest_root(Fraction(2)))
show("root of 1600000000", nearest_root(Fraction(1600000000)))
show("root of -1", 0.0)
show("distance of (3, 4) to 0", nearest_root(Fraction(25)))
