"""The table of a plan, as the program `rows` works it out: exclusive areas after the last edit, or a refusal in words."""
import os
import re
import shutil
import struct
import subprocess

from . import rules
from .file import BOX, HEAD, encode, heads_after, values
from .places import BUILT_ROWS, INSTALLED, ROWS

ROW = re.compile(r'([0-9A-F]{3}) ([0-9A-F]{16})\Z')
REFUSED = re.compile(r'refused ([0-9]+) at ([0-9]+)\n\Z')


# The limits, and the number of the refusal (docs/SCOPE.md): 5 for a side of the box, 11 for a radius. Radius 0 closes a head.
LIMITS = {'width': (1, 40000, 5), 'height': (1, 40000, 5), 'radius': (0, 20000, 11)}
COORDINATE = (-20000, 20000, 4)


class Refused(Exception):
    """`rows` refuses the plan: the line of the text (None if it is no one line), and why in words."""


class NoProgram(Exception):
    """The program cannot be run, or does not answer as document 01 says."""


def program(chosen=None):
    """The program `rows`: the one chosen, the one of this tree, or, from the sources, one in PATH."""
    found = chosen or (ROWS if os.path.exists(BUILT_ROWS) else None if INSTALLED else shutil.which('rows'))
    if not found:
        raise NoProgram('the program rows is not there; ' + ('install it anew' if INSTALLED else 'build it with: tools/build rows'))
    return found


def answer(data, chosen=None):
    """What `rows` prints for the bytes of a plan file: a table, or a refusal (status 0 of the program itself, 1 of tools/rows)."""
    path = program(chosen)
    try:
        done = subprocess.run([path], input=data, capture_output=True)
    except OSError as error:
        raise NoProgram('cannot run %s: %s' % (path, error.strerror))
    printed = done.stdout.decode('utf-8', 'replace')
    if done.stderr or done.returncode not in (0, 1) or (done.returncode == 1 and not REFUSED.match(printed)):
        raise NoProgram('%s failed (status %d): %s' % (path, done.returncode, done.stderr.decode('utf-8', 'replace').strip()))
    return printed


def parsed(printed):
    """The lines `MMM BITS` as a list of (mask, area in square centimetres)."""
    rows = []
    for line in printed.split('\n')[:-1]:
        found = ROW.match(line)
        if not found:
            raise NoProgram('rows printed %s, which is no row' % ascii(line[:60]))
        rows.append((int(found.group(1), 16), struct.unpack('>d', bytes.fromhex(found.group(2)))[0]))
    if not rows or not printed.endswith('\n'):
        raise NoProgram('rows printed no whole table')
    return rows


def named(field, record, plan):
    """A field in words, such as the radius of head 2."""
    if record.kind == 'move':
        return 'the %s that this move gives head %d' % (field, record.head)
    if record.kind == 'box':
        return 'the %s of the box' % field
    return 'the %s of head %d' % (field, next(number for number, head in enumerate(plan.heads) if head is record))


def heads_in(plan):
    count = len(plan.heads)
    return 'no heads' if count == 0 else 'only head 0' if count == 1 else 'heads 0 to %d' % (count - 1)


def field_at(place):
    """The name, the value and the limits of the field at a place."""
    name = (BOX if place.record.kind == 'box' else HEAD)[place.index]
    return name, place.record.fields[place.index], LIMITS.get(name, COORDINATE)


def refusal(plan, places):
    """The first check that fails in reading order, as (number, offset), or None: for calls of the library, which give no offset."""
    if len(plan.heads) > 10:
        return 2, 0
    for offset, place in places.items():
        if place.index is None:
            if place.record.head >= len(plan.heads):
                return 6, offset
        else:
            _, value, (low, high, number) = field_at(place)
            if not low <= value <= high:
                return number, offset
    return None


def in_words(number, offset, plan, places):
    """A Refused for the refusal `number` at `offset` of the plan's bytes."""
    said = 'refused %d at %d' % (number, offset)
    if number == 2:
        return Refused(plan.heads[10].line, '%s: the plan has %d heads, at most 10 are taken' % (said, len(plan.heads)))
    place = places.get(offset)
    if place is None:
        return Refused(None, '%s, which no line of the text explains' % said)
    record, line = place.record, place.record.line
    if number == 6:
        return Refused(line, '%s: a move of head %d, but the plan has %s' % (said, record.head, heads_in(plan)))
    name, value, (low, high, _) = field_at(place)
    hint = '; a head is closed by radius 0' if name == 'radius' and value < low else ''
    return Refused(line, '%s: %s is %d, outside %d to %d%s' % (said, named(name, record, plan), value, low, high, hint))


def taken_values(plan):
    """The values of a plan that the checks take. Raises Refused."""
    places = encode(plan)[1]
    refused = refusal(plan, places)
    if refused:
        raise in_words(*refused, plan, places)
    return values(plan)


def rows_of(plan, chosen=None):
    """The present rows of the plan after its last edit: (mask, exclusive area in square centimetres). Raises Refused, NoProgram."""
    data, places = encode(plan)
    printed = answer(data, chosen)
    refused = REFUSED.match(printed)
    if refused:
        raise in_words(int(refused.group(1)), int(refused.group(2)), plan, places)
    return parsed(printed)


def heads_of(mask):
    """The head numbers of a row, as `0,2`; row 0 is the ground that no head waters."""
    return ','.join(str(i) for i in range(mask.bit_length()) if mask >> i & 1) or 'none'


def heads_named(mask):
    """The heads of a mask in a sentence: `head 0`, `heads 0, 2`."""
    return ('heads ' if mask & (mask - 1) else 'head ') + heads_of(mask).replace(',', ', ')


def square_metres(area):
    """An area given in square centimetres, in square metres to four places, which is to the square centimetre."""
    if 0 < area < 0.5:
        return '< 0.0001'
    return '%.4f' % (area / 10000)


def aligned(lines):
    """Lines of (row, heads, area) in columns: text to the left, numbers to the right."""
    widths = [max(len(line[i]) for line in lines) for i in range(3)]
    return ''.join('%s  %s  %s\n' % (row.ljust(widths[0]), heads.ljust(widths[1]), area.rjust(widths[2])) for row, heads, area in lines)


def table(rows, closed=0):
    """The table for a reader: in the order of `rows`, by number of heads and then by mask; below it the closed heads, a mask."""
    lines = aligned([('row', 'heads', 'area m²')] + [('%03X' % mask, heads_of(mask), square_metres(area)) for mask, area in rows])
    return lines + ('closed, in no row: %s\n' % heads_named(closed) if closed else '')


def table_of(plan, chosen=None):
    """The table of the plan after its last move, for a reader. Raises Refused, NoProgram."""
    return table(rows_of(plan, chosen), rules.closed_in(heads_after(plan)))
