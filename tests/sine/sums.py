"""The 40-term sums of sine and cosine at a float, by whole numbers alone, and a float's bits."""
import math
import struct
from fractions import Fraction

TERMS = 40


def bits_of(v: float) -> int:
    return struct.unpack(">Q", struct.pack(">d", v))[0]


def float_of(bits: int) -> float:
    return struct.unpack(">d", struct.pack(">Q", bits))[0]


def total(v: Fraction, first: int) -> tuple[int, int]:
    """The sum of 40 terms ±v^i/i! for i = first, first + 2, .., as a numerator and a denominator, by whole numbers alone."""
    x, q = v.numerator, v.denominator
    last = first + 2 * (TERMS - 1)
    numerator = 0
    for k in range(TERMS):
        i = first + 2 * k
        numerator += (-1) ** k * x**i * q ** (last - i) * (math.factorial(last) // math.factorial(i))
    return numerator, math.factorial(last) * q**last
