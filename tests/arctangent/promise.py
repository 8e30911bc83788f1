"""promise.py PROGRAM POINTS: document 01's promise of atan2, acos and asin, held against exact fractions.

For magnitudes up to 2^20, not both zero, the angle t has |t| <= PI, |x*S - y*C| <= 2^-40 * (|x| + |y|) and x*C + y*S > 0, where S and C are
the 40-term sums at t; zero signs as IEEE 754; +0 outside. acos and asin are atan2 of the document's arguments, each step rounded. Prints how
many arguments of which kind were compared, and exits 1 where one fails."""
import math
import random
import subprocess
import sys
from fractions import Fraction

from sums import bits_of, float_of, total

LARGEST = 2.0**20


def angle_kept(t: float, y: float, x: float) -> bool:
    if not (abs(y) <= LARGEST and abs(x) <= LARGEST) or (x == 0 and y == 0):
        return bits_of(t) == 0
    if not abs(t) <= math.pi:
        return False
    if y == 0 or x == 0:
        # signed zeros: the machine's answer is IEEE 754's, and exact or correctly rounded there
        if bits_of(t) != bits_of(math.atan2(y, x)):
            return False
    (s, s_den), (c, c_den) = total(Fraction(t), 1), total(Fraction(t), 0)
    S, C, X, Y = Fraction(s, s_den), Fraction(c, c_den), Fraction(x), Fraction(y)
    return abs(X * S - Y * C) * 2**40 <= abs(X) + abs(Y) and X * C + Y * S > 0


def cofunction(c: float) -> float:
    return math.sqrt((1.0 - c) * (1.0 + c))


def asked(points: int) -> list[tuple[str, str, tuple[float, ...]]]:
    rng = random.Random(2)
    small = [0.0, 5e-324, 2.0**-1022, 1e-300, 2.0**-40, 1.0, 3.0, 80000.0, LARGEST]
    edge = [math.nextafter(LARGEST, math.inf), 1e300, math.inf, math.nan]
    signed = [s * v for v in small + edge for s in (1.0, -1.0)]
    out = [("ends and signed zeros", "atan2", (y, x)) for y in signed for x in signed]
    for _ in range(points // 8):
        v = rng.uniform(-80000, 80000)
        w = v * (1 + rng.choice((-1, 1)) * 2.0 ** -rng.randrange(1, 53))
        out.append(("near a diagonal", "atan2", (v, rng.choice((-1, 1)) * w)))
        tiny = v * 2.0 ** -rng.randrange(1, 300)
        out.append(("near an axis", "atan2", (tiny, v)))
        out.append(("near an axis", "atan2", (v, tiny)))
        out.append(("whole centimetres", "atan2", (float(rng.randrange(-40000, 40001)), float(rng.randrange(-40000, 40001)))))
        c = rng.choice((rng.uniform(-1, 1), 1 - 2.0 ** -rng.randrange(1, 54), -1 + 2.0 ** -rng.randrange(1, 54)))
        out.append(("acos", "acos", (c,)))
        out.append(("asin", "asin", (c,)))
    for c in (0.0, -0.0, 1.0, -1.0, 5e-324, math.nextafter(1.0, 2.0), -1.5, math.inf, math.nan):
        out += [("acos", "acos", (c,)), ("asin", "asin", (c,))]
    return out


def kept(name: str, words: tuple[float, ...], t: float) -> bool:
    if name == "atan2":
        return angle_kept(t, *words)
    (c,) = words
    if not abs(c) <= 1:
        return bits_of(t) == 0
    return angle_kept(t, cofunction(c), c) if name == "acos" else angle_kept(t, c, cofunction(c))


def main() -> int:
    program, points = sys.argv[1], int(sys.argv[2])
    calls = asked(points)
    text = "".join(f"{name} {' '.join(f'{bits_of(v):016X}' for v in words)}\n" for _, name, words in calls)
    lines = subprocess.run([program, "answers"], input=text, capture_output=True, text=True, check=True).stdout.split("\n")
    counts: dict[str, int] = {}
    failed = 0
    for (kind, name, words), line in zip(calls, lines, strict=False):
        t = float_of(int(line, 16))
        counts[kind] = counts.get(kind, 0) + 1
        if not kept(name, words, t):
            failed += 1
            print(f"{kind}: the promise of {name} is broken at {words!r}: {t!r}")
    for kind, count in counts.items():
        print(f"{count:>10} {kind}")
    print(f"{sum(counts.values())} arguments held against the 40-term sums, {failed} failures")
    return 1 if failed or sum(counts.values()) < points // 2 else 0


sys.exit(main())
