"""What heads water, worked out apart from the library: no outlines, arcs or angles, but lengths along upright lines, summed over x.

Between two neighbouring x where a circle begins or ends, two circles cross or a circle crosses the box's edge, the order of the circles along an
upright line does not change, and each length is a smooth function but for square roots at the ends, which the turn x = m - h*cos(t) takes away;
so 24 Gauss-Legendre points between each two give some ten digits."""
import itertools
import math


def gauss(count):
    """Points and weights on 0 to 1, by Newton's method on the Legendre polynomial."""
    made = []
    for k in range(count):
        x = math.cos(math.pi * (k + 0.75) / (count + 0.5))
        for _ in range(100):
            before, value = 1.0, x
            for j in range(2, count + 1):
                before, value = value, ((2 * j - 1) * x * value - (j - 1) * before) / j
            slope = count * (x * value - before) / (x * x - 1)
            x -= value / slope
        made.append(((1 - x) / 2, 1 / ((1 - x * x) * slope * slope)))
    return made


GAUSS = gauss(24)


def crossings(a, b):
    """The x where two circles cross."""
    (xa, ya, ra), (xb, yb, rb) = a, b
    d = math.hypot(xb - xa, yb - ya)
    if d == 0 or d > ra + rb or d < abs(ra - rb):
        return []
    along = (d * d + ra * ra - rb * rb) / (2 * d)
    aside = math.sqrt(max(0.0, ra * ra - along * along))
    middle, off = xa + along * (xb - xa) / d, aside * (yb - ya) / d
    return [middle - off, middle + off]


def breaks(box, heads):
    """The x between which lengths are smooth."""
    left, right, low, high = edges(box)
    found = {left, right}
    for x, y, r in heads:
        found |= {x - r, x + r}
        for edge in (low, high):
            if abs(edge - y) < r:
                off = math.sqrt(r * r - (edge - y) ** 2)
                found |= {x - off, x + off}
    for a, b in itertools.combinations(heads, 2):
        found.update(crossings(a, b))
    return sorted(x for x in found if left <= x <= right)


def edges(box):
    x, y, width, height = box
    return x - width / 2, x + width / 2, y - height / 2, y + height / 2


def lengths(box, heads, x):
    """How much of the upright line at x exactly the heads of each set water: (mask, length) for each piece of it."""
    _, _, low, high = edges(box)
    ends = [(low, 0), (high, 0)]
    for i, (cx, cy, r) in enumerate(heads):
        if abs(x - cx) < r:
            half = math.sqrt(r * r - (x - cx) ** 2)
            ends += [(min(max(end, low), high), 1 << i) for end in (cy - half, cy + half)]
    ends.sort()
    mask = 0
    for (start, turned), (end, _) in zip(ends, ends[1:]):
        mask ^= turned
        yield mask, end - start


def exclusives(box, heads):
    """{mask: area that exactly its heads water}, of all masks, in the box."""
    areas = dict.fromkeys(range(1 << len(heads)), 0.0)
    for a, b in itertools.pairwise(breaks(box, heads)):
        middle, half = (a + b) / 2, (b - a) / 2
        for at, weight in GAUSS:
            turn = math.pi * at
            step = weight * math.pi * half * math.sin(turn)
            for mask, length in lengths(box, heads, middle - half * math.cos(turn)):
                areas[mask] += step * length
    return areas


def together(areas, mask):
    """The area that all heads of a set water, from the exclusives."""
    return sum(area for other, area in areas.items() if other & mask == mask)


def gradient(box, heads, mask, step=0.05):
    """How an exclusive grows with x, y, radius of each head, then the box's x, y, ln(width*height), ln(width/height): by differences."""

    def difference(change, by):
        ends = [exclusives(*change(sign * by))[mask] for sign in (1, -1)]
        return (ends[0] - ends[1]) / (2 * by)

    def head(i, field):
        return lambda by: (box, [[v + by * ((i, field) == (j, k)) for k, v in enumerate(one)] for j, one in enumerate(heads)])

    def moved(field):
        return lambda by: ([v + by * (k == field) for k, v in enumerate(box)], heads)

    def sized(width, height):
        return lambda by: (box[:2] + [box[2] * math.exp(width * by), box[3] * math.exp(height * by)], heads)

    found = [difference(head(i, field), step) for i in range(len(heads)) for field in range(3)]
    found += [difference(moved(field), step) for field in range(2)]
    return found + [difference(sized(*by), step / 1000) for by in ((0.5, 0.5), (0.5, -0.5))]
