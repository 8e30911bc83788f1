"""promise.py PROGRAM POINTS: document 01's promise of sine and cosine, held against exact fractions.

For |v| <= 16 the answer lies within 2^-40 of the first 40 terms of the Taylor series at v (terms to degree 79 and 78) and in -1 to 1;
for any other v it is +0. Prints how many angles of which kind were compared, and exits 1 where one fails."""
import random
import subprocess
import sys
from fractions import Fraction

from sums import bits_of, float_of, total

def kept(answer: float, v: float, first: int) -> bool:
    if not abs(v) <= 16:
        return bits_of(answer) == 0
    if not -1 <= answer <= 1:
        return False
    n, d = total(Fraction(v), first)
    a = Fraction(answer)
    return abs(n * a.denominator - a.numerator * d) << 40 <= d * a.denominator


def angles(points: int) -> list[tuple[str, float]]:
    rng = random.Random(1)
    out = [("ends", float_of(b | s)) for s in (0, 1 << 63)
           for b in (0, 1, 2, 1 << 52, bits_of(16.0), bits_of(16.0) - 1, bits_of(16.0) + 1, bits_of(1e300),
                     0x7FF0000000000000, 0x7FF8000000000000, 0x7FEFFFFFFFFFFFFF)]
    out += [("subnormal", float_of(rng.getrandbits(52) >> rng.randrange(52) | rng.getrandbits(1) << 63)) for _ in range(20)]
    quarter = Fraction(905502432259640355, 2**59)
    for k in range(-11, 12):
        centre = bits_of(float(k * quarter))
        out += [("quarter turns", float_of(max(centre + j, 0))) for j in range(-20, 21)]
    while len(out) < points:
        out.append(("evenly spread", rng.uniform(-16, 16)))
        out.append(("every exponent", float_of(rng.getrandbits(52) | rng.randrange(900, 1028) << 52 | rng.getrandbits(1) << 63)))
    return out


def main() -> int:
    program, points = sys.argv[1], int(sys.argv[2])
    asked = angles(points)
    text = "".join(f"{bits_of(v):016X}\n" for _, v in asked)
    lines = subprocess.run([program, "answers"], input=text, capture_output=True, text=True, check=True).stdout.split("\n")
    counts: dict[str, int] = {}
    failed = 0
    for (kind, v), line in zip(asked, lines, strict=False):
        sine, cosine = (float_of(int(word, 16)) for word in line.split())
        counts[kind] = counts.get(kind, 0) + 1
        if not kept(sine, v, 1) or not kept(cosine, v, 0):
            failed += 1
            print(f"{kind}: the promise is broken at {v!r}: sine {sine!r}, cosine {cosine!r}")
    for kind, count in counts.items():
        print(f"{count:>10} {kind}")
    print(f"{sum(counts.values())} angles held against the 40-term sums, {failed} failures")
    return 1 if failed or sum(counts.values()) < points else 0


sys.exit(main())
