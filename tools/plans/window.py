"""The window of the story: after a move it works out the rows with the moved head, and believes all others untouched."""
from .table import heads_of, square_metres
from .why import LAST_BITS, Moment, Move, counted, reason, same


def in_row_order(masks):
    return sorted(masks, key=lambda mask: (bin(mask).count('1'), mask))


def exclusives(rows):
    """Document 01: from the last row to the first, minus the sum, in row order, of the not yet clamped exclusives of present strict
    supersets; clamping comes last."""
    order, found = in_row_order(rows), {}
    for mask in reversed(order):
        total = 0.0
        for other in order:
            if other != mask and other & mask == mask:
                total += found[other]
        found[mask] = rows[mask] - total
    return {mask: value if 0.0 < value else 0.0 for mask, value in found.items()}


class StaleWindow:
    """Rows as this window keeps them. It begins with the right ones."""

    def __init__(self, rows):
        self.rows = dict(rows)

    def move(self, k, afresh):
        """A move of head k, where `afresh` are the right rows after it."""
        kept = {mask: number for mask, number in self.rows.items() if not mask >> k & 1}
        self.rows = {**kept, **{mask: number for mask, number in afresh.items() if mask >> k & 1}}


class Step:
    """What stands after a move: the stale window's tables, the edited ones, and those worked out afresh."""

    def __init__(self, move, stale, afresh):
        self.move, self.stale_rows, self.afresh = move, dict(stale.rows), afresh
        self.stale_exclusives = exclusives(stale.rows)

    def masks(self):
        return in_row_order(set(self.stale_rows) | set(self.move.after.rows) | set(self.afresh.rows))

    def differs(self, mask, rows, exclusive):
        return not (same(rows.get(mask), self.afresh.rows.get(mask)) and same(exclusive.get(mask), self.afresh.exclusives.get(mask)))

    def stale(self, mask):
        return self.differs(mask, self.stale_rows, self.stale_exclusives)

    def edited_differs(self, mask):
        return self.differs(mask, self.move.after.rows, self.move.after.exclusives)

    def wrong_area(self, mask):
        """By how much the stale window's exclusive area is wrong, in square centimetres."""
        return abs(self.stale_exclusives.get(mask, 0.0) - self.afresh.exclusives.get(mask, 0.0))


def steps(make, box, heads, moves):
    """A Step for each move. `make` gives a window over the library for a box and heads."""
    edited = make(box, heads)
    stale = StaleWindow(edited.rows())
    for k, place in moves:
        before = Moment(edited)
        edited.edit(k, *place)
        afresh = Moment(make(box, edited.plan()))
        stale.move(k, afresh.rows)
        yield Step(Move(k, before, Moment(edited)), stale, afresh)


def mark(step, mask):
    if step.edited_differs(mask):
        return '<- THE EDITED TABLE DIFFERS'
    if not step.stale(mask):
        return ''
    if mask not in step.stale_rows:
        return '<- stale: the window lacks the row'
    if mask not in step.afresh.rows:
        return '<- stale: there is no such row'
    wrong = step.wrong_area(mask)
    return '<- stale by %s m²' % square_metres(wrong) if wrong >= 0.5 else '<- stale in its last bits'


def lines_of(step):
    """The lines for a step: rows that are stale or have an area of a square centimetre; and how many others there are."""
    lines, others = [('row', 'heads', 'window', 'edited', 'afresh', '')], 0
    tables = step.stale_exclusives, step.move.after.exclusives, step.afresh.exclusives
    for mask in step.masks():
        said = mark(step, mask)
        if said or any(table.get(mask, 0.0) >= 0.5 for table in tables):
            areas = [square_metres(table[mask]) if mask in table else 'no row' for table in tables]
            lines.append(('%03X' % mask, heads_of(mask), *areas, said))
        else:
            others += 1
    return lines, others


def because(step):
    """Why the window went wrong on this move: rows that changed by it and do not have the moved head."""
    missed = [mask for mask in step.move.masks() if step.move.own_changed(mask) and not mask >> step.move.k & 1]
    lines, small = [], 0
    for mask in missed:
        words = reason(step.move, mask)
        if words.endswith(LAST_BITS):
            small += 1
        else:
            yet = 'it is ' + words if 'present' in words.split(':')[0] else words
            lines.append('why: row %03X does not have head %d, so the window left it; yet %s' % (mask, step.move.k, yet))
    return lines + (['%s left by the window changed in the last bits only' % counted(small, 'rows')] if small else [])


def told(number, step, colour):
    """The text for a step; stale rows in red on a terminal."""
    move = step.move
    old, new = move.before.heads[move.k], move.after.heads[move.k]
    met = 'meets nobody before or after' if not move.met_before | move.met_after else 'meets other heads'
    turned = move.turned and '; it ' + move.turned
    parts = ['move %d: head %d from (%d, %d, %d) to (%d, %d, %d), where it %s%s' % (number, move.k, *old, *new, met, turned)]
    lines, others = lines_of(step)
    widths = [max(len(line[i]) for line in lines) for i in range(5)]
    for line in lines:
        cells = [line[i].ljust(widths[i]) if i < 2 else line[i].rjust(widths[i]) for i in range(5)]
        said = ('  ' + '  '.join(cells) + '  ' + line[5]).rstrip()
        parts.append('\033[1;31m%s\033[0m' % said if colour and line[5] else said)
    parts += ['  and %s of next to no area, the same in all three' % counted(others, 'rows')] if others else []
    return '\n'.join(parts + ['  ' + words for words in because(step)]) + '\n'
