"""Why rows changed: for each move of a plan, every row whose number, presence or exclusive area is another, with the reason.

The reasons come from document 01's rule of meeting in whole numbers and from the tables before and after. Of a row that came or went
it is said how the row is found among the sets (sets.py)."""
import math
import struct

from . import rules, sets
from .library import Window
from .table import heads_named, heads_of, square_metres, taken_values


LAST_BITS = '; only its last bits changed'


def same(a, b):
    """Two numbers of a table have the same bits; None is no row."""
    return (a is None) == (b is None) and (a is None or struct.pack('<d', a) == struct.pack('<d', b))


class Moment:
    """The plan and its tables at one moment."""

    def __init__(self, window):
        self.heads, self.rows, self.exclusives = window.plan(), window.rows(), window.exclusives()


class Move:
    """A move of head k with the moments before and after it."""

    def __init__(self, k, before, after):
        self.k, self.before, self.after = k, before, after
        self.met_before = rules.met(before.heads, k, [before.heads[k]])
        self.met_after = rules.met(after.heads, k, [after.heads[k]])
        self.sets_before, self.sets_after = sets.discovered(before.heads), sets.discovered(after.heads)
        self.turned = rules.turned(before.heads[k], after.heads[k])

    def masks(self):
        """Every row that is present before or after, in row order."""
        return sorted(set(self.before.rows) | set(self.after.rows), key=lambda mask: (bin(mask).count('1'), mask))

    def own_changed(self, mask):
        return not same(self.before.rows.get(mask), self.after.rows.get(mask))

    def changed(self, mask):
        return self.own_changed(mask) or not same(self.before.exclusives.get(mask), self.after.exclusives.get(mask))

    def anew(self, mask):
        """Whether the move works the row out."""
        return mask in self.after.rows and rules.reworked(mask, self.k, self.met_before | self.met_after, self.before.rows)

    def kept(self):
        return [mask for mask in self.masks() if mask in self.after.rows and not self.anew(mask)]


def distance(a, b):
    """The distance of two centres in whole centimetres, rounded to nearest."""
    return '%d cm' % ((math.isqrt(4 * rules.square_distance(a, b)) + 1) // 2)


def meeting(move, j):
    """When the moved head met head j, with the distances of their centres."""
    at = lambda moment: distance(moment.heads[move.k], moment.heads[j])
    before, after = move.met_before >> j & 1, move.met_after >> j & 1
    if before and after:
        return 'met before at %s and meets now at %s' % (at(move.before), at(move.after))
    return 'met before, at %s' % at(move.before) if before else 'meets now, at %s' % at(move.after)


def of_met_heads(move, mask):
    met = sets.ones(mask & (move.met_before | move.met_after))
    more = ', and %s likewise met' % heads_named(sum(1 << j for j in met[1:])) if met[1:] else ''
    return 'it has head %d, which the moved head %s%s' % (met[0], meeting(move, met[0]), more)


def point_clause(move, mask, i, j, gone):
    """That heads i and j meet at a point that only the heads of a mask reach, and what the moved head has to do with it."""
    words = ('met', heads_named(mask), 'reached') if gone else ('meet', heads_named(mask), 'reach')
    said = 'heads %d and %d %s at a point that only %s %s' % (i, j, *words)
    if move.k in (i, j):
        return said
    reached = bool(mask >> move.k & 1)
    if gone:
        return said + ('; now the moved head does not reach it' if reached else '; now the moved head reaches it too')
    return said + ('; before, the moved head did not reach it' if reached else '; before, the moved head reached it too')


def set_clause(move, mask, gone):
    """How a set is found among the plan's sets: after the move for one that came, before it for one that went."""
    heads, found = (move.before.heads, move.sets_before) if gone else (move.after.heads, move.sets_after)
    how = found[mask]
    if how[0] == 'point':
        return point_clause(move, mask, how[1], how[2], gone)
    if how[0] == 'less':
        clause = point_clause(move, how[1], *found[how[1]][1:3], gone)
        return '%s; without head %d that leaves this row' % (clause, how[2])
    if how[0] == 'meet':
        return 'heads %d and %d %s, at %s' % (how[1], how[2], 'met' if gone else 'now meet', distance(heads[how[1]], heads[how[2]]))
    if how[0] == 'contain':
        return 'head %d %s head %d' % (how[1], 'contained' if gone else 'now contains', how[2])
    return 'head %d %s within all its other heads' % (how[1], 'lay' if gone else 'lies')


def of_rows_within(move, mask):
    """The row kept its own number; a row of more heads, which lies within it, changed."""
    within = [other for other in move.masks() if other != mask and other & mask == mask and move.own_changed(other)]
    first = within[0]
    what = 'became present' if first not in move.before.rows else 'is no more present' if first not in move.after.rows else 'changed'
    more = ' (and %d more)' % (len(within) - 1) if within[1:] else ''
    return 'its own area stayed, but row %03X, which lies within it, %s%s' % (first, what, more)


def presence_clause(move, mask, gone):
    """Why a row came or went. If the moved head was closed or opened, that is said first; it is all there is to say of the rows that a closed head takes
    along and of the one that an opened head has alone."""
    if not move.turned:
        return set_clause(move, mask, gone)
    turned = 'head %d %s' % (move.k, move.turned)
    whole = mask >> move.k & 1 and (gone or rules.is_single(mask))
    return turned if whole else '%s; %s' % (turned, set_clause(move, mask, gone))


def reason(move, mask):
    """Why a row changed, in a sentence."""
    if mask not in move.before.rows:
        return 'newly present: ' + presence_clause(move, mask, False)
    if mask not in move.after.rows:
        return 'no more present: ' + presence_clause(move, mask, True)
    if not move.own_changed(mask):
        return of_rows_within(move, mask)
    small = LAST_BITS if shown(move.before.rows, mask) == shown(move.after.rows, mask) else ''
    return ('it has the moved head' if mask >> move.k & 1 else of_met_heads(move, mask)) + small


def moves_of(window, moves):
    """The moves of a plan, one after another."""
    for k, place in moves:
        before = Moment(window)
        window.edit(k, *place)
        yield Move(k, before, Moment(window))


def shown(rows, mask):
    return square_metres(rows[mask]) if mask in rows else 'no row'


def counted(count, things):
    """`no rows`, `one row`, `2 rows`."""
    return 'one ' + things[:-1] if count == 1 else '%s %s' % (count or 'no', things)


def opening(number, move):
    """What was moved, whether that closed or opened it, whom it met, and how many rows were kept."""
    old, new = move.before.heads[move.k], move.after.heads[move.k]
    state = move.turned or ('stays closed' if rules.is_closed(new) else '')
    met = ['%s before' % heads_named(move.met_before)] if move.met_before else []
    met += ['%s now' % heads_named(move.met_after)] if move.met_after else []
    anew = [mask for mask in move.masks() if move.anew(mask)]
    unchanged = [mask for mask in anew if not move.changed(mask)]
    gone = [mask for mask in move.masks() if mask not in move.after.rows]
    return [
        'move %d: head %d from (%d, %d), radius %d to (%d, %d), radius %d%s' % (number, move.k, *old, *new, state and ': ' + state),
        'It meets %s.' % (' and '.join(met) or 'no head, before or now'),
        '%s kept, %d worked out anew (%d of them came out the same), %d no more present.' % (
            counted(len(move.kept()), 'rows'), len(anew), len(unchanged), len(gone))]


def told(number, move):
    """The text for one move."""
    lines = [('row', 'heads', 'area before', 'after', 'exclusive before', 'after', 'why')]
    for mask in move.masks():
        if move.changed(mask):
            areas = [shown(rows, mask) for rows in (move.before.rows, move.after.rows, move.before.exclusives, move.after.exclusives)]
            lines.append(('%03X' % mask, heads_of(mask), *areas, reason(move, mask)))
    if len(lines) == 1:
        return '\n'.join(opening(number, move) + ['No row changed.']) + '\n'
    widths = [max(len(line[i]) for line in lines) for i in range(6)]
    made = lambda line: '  '.join([line[i].ljust(widths[i]) if i < 2 else line[i].rjust(widths[i]) for i in range(6)] + [line[6]])
    title = 'Changed, areas in m²:'
    return '\n'.join(opening(number, move) + [title] + [made(line) for line in lines]) + '\n'


def why(plan, library):
    """The text for all moves of a plan. Raises table.Refused."""
    box, heads, moves = taken_values(plan)
    window = Window(library, box, heads)
    return '\n'.join(told(number, move) for number, move in enumerate(moves_of(window, moves), 1)) or 'The plan has no moves.\n'
