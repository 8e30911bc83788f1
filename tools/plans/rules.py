"""Document 01's rule of meeting, in whole numbers, as it stands now (docs/SCOPE.md), and which rows an edit works out anew (demand 3)."""


def square_distance(a, b):
    return (a[0] - b[0]) ** 2 + (a[1] - b[1]) ** 2


def is_closed(head):
    """A head (x, y, radius) of radius 0 is closed: it meets nothing, contains nothing and is in no set. It keeps its number and its place."""
    return head[2] == 0


def either_closed(a, b):
    return is_closed(a) or is_closed(b)


def closed_in(heads):
    """The mask of the closed heads."""
    return sum(1 << i for i, head in enumerate(heads) if is_closed(head))


def turned(old, new):
    """`was closed` or `was opened`, if that is what a move from one place to the other did to its head."""
    if is_closed(old) == is_closed(new):
        return ''
    return 'was closed' if is_closed(new) else 'was opened'


def meets(a, b):
    """Two heads meet exactly if neither is closed, t² <= D <= s² and they are not identical."""
    return not either_closed(a, b) and (a[2] - b[2]) ** 2 <= square_distance(a, b) <= (a[2] + b[2]) ** 2 and list(a) != list(b)


def met(heads, k, places):
    """The mask of the heads that head k meets at one of the places (its old and new values)."""
    return sum(1 << j for j, head in enumerate(heads) if j != k and any(meets(place, head) for place in places))


def is_single(mask):
    return mask & (mask - 1) == 0


def reworked(mask, k, met_mask, before):
    """Whether an edit of head k works out the row of a set that is present after it; `before` are the sets before it. Row 0 is kept."""
    return bool(mask >> k & 1 or mask not in before or (not is_single(mask) and mask & met_mask)) if mask else False
