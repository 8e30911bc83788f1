"""The sets of a plan with the reason why each is one: document 01, "Sets (discover_regions)", with the Rust's float operations in the
Rust's order; a closed head is in none of them (docs/SCOPE.md). It serves to say why a row came or went; which rows there are is the library's
word, and the tests hold this to it.
"""
from math import sqrt

from .rules import either_closed, is_closed, meets, square_distance


def ones(mask):
    return [i for i in range(mask.bit_length()) if mask >> i & 1]


def contains(a, b):
    """Head a contains head b: neither is closed, rA >= rB and D <= (rA - rB)²."""
    return not either_closed(a, b) and a[2] >= b[2] and square_distance(a, b) <= (a[2] - b[2]) ** 2


def meeting_points(one, other):
    """The one or two points at which heads that meet do so, or none."""
    if not meets(one, other):
        return []
    (x, y, r), (u, v, q) = [[float(value) for value in head] for head in (one, other)]
    d = sqrt((x - u) * (x - u) + (y - v) * (y - v))
    a = (r * r - q * q + d * d) / (2.0 * d)
    h = sqrt(max(r * r - a * a, 0.0))
    px, py = x + a * (u - x) / d, y + a * (v - y) / d
    rx, ry = -(v - y) * (h / d), (u - x) * (h / d)
    points = [(px + rx, py + ry), (px - rx, py - ry)]
    return points[:1] if points[0] == points[1] else points


def adopters(heads, i, j, point):
    """The heads that have a meeting point of heads i and j: a closed head has none, not even the one that it stands on."""
    has = lambda head: sqrt((head[0] - point[0]) * (head[0] - point[0]) + (head[1] - point[1]) * (head[1] - point[1])) <= head[2]
    return sum(1 << k for k, head in enumerate(heads) if k in (i, j) or not is_closed(head) and has(head))


def discovered(heads):
    """Each set of the plan, with how it is found: ('single',), ('meet', i, j), ('contain', i, j), ('point', i, j), ('less', mask, head
    taken) or ('level', the head that all others contain). A mask of three or more that is made less comes from a point."""
    count = len(heads)
    found = {1 << i: ('single',) for i in range(count) if not is_closed(heads[i])}
    pairs = [(i, j) for i in range(count) for j in range(i + 1, count)]
    for i, j in pairs:
        if meets(heads[i], heads[j]):
            found[1 << i | 1 << j] = ('meet', i, j)
        elif contains(heads[i], heads[j]) or contains(heads[j], heads[i]):
            found[1 << i | 1 << j] = ('contain', i, j) if contains(heads[i], heads[j]) else ('contain', j, i)
    for i, j in pairs:
        for point in meeting_points(heads[i], heads[j]):
            found.setdefault(adopters(heads, i, j, point), ('point', i, j))
    for mask in sorted(mask for mask in found if len(ones(mask)) >= 3):
        for i in ones(mask):
            found.setdefault(mask & ~(1 << i), ('less', mask, i))
    levels(heads, found)
    return found


def levels(heads, found):
    """Level by level from the pairs: a new mask needs all pairs, and one head that all the others contain."""
    level = sorted(mask for mask in found if len(ones(mask)) == 2)
    pairs = set(level)
    while level:
        following = []
        for base in level:
            for new in range(len(heads)):
                mask = base | 1 << new
                if mask in found or any((1 << new | 1 << i) not in pairs for i in ones(base)):
                    continue
                held = [k for k in ones(mask) if all(i == k or contains(heads[i], heads[k]) for i in ones(mask))]
                if held:
                    found[mask] = ('level', held[0])
                    following.append(mask)
        level = following
