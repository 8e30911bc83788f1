"""A plan as text, one thing a line:

    box CENTRE-X CENTRE-Y WIDTH HEIGHT      first, at most once; without it every field is left out
    head X Y RADIUS                         heads 0, 1, 2 .. in the order of their lines
    move HEAD X Y RADIUS                    an edit: the head's number and its new values

Numbers are whole, in base ten (centimetres). `-` leaves a field out of the file: in the box 0, 0, 40000, 40000, in a head what
the head before it has (head 0: 0, 0, 500), in a move what that head has. `#` begins a comment; blank lines count for nothing.
A head of radius 0 is closed: it waters nothing, but keeps its number and its place.

The normal form, which `text` writes: one box line, the head lines, the move lines, single spaces, no sign but `-`, no leading
zeros, no comments or blank lines, and a line end after every line.
"""
import re

from .file import BOX, HEAD, MOST_HEADS, Plan, Record

FORMS = {'box': ('box CENTRE-X CENTRE-Y WIDTH HEIGHT', 4), 'head': ('head X Y RADIUS', 3), 'move': ('move HEAD X Y RADIUS', 4)}
NUMBER = re.compile(r'[+-]?[0-9]+\Z')
LOWEST, HIGHEST = -2**31, 2**31 - 1


class Wrong(Exception):
    """The text is no plan: the line number, and what was expected there."""


def shown(word):
    """A word of the text for an error message, on one line and not long."""
    word = ascii(word)[1:-1]
    return word if len(word) <= 30 else word[:27] + '...'


def number(word, name, line):
    if not NUMBER.match(word):
        raise Wrong(line, 'expected a whole number for %s, found %s' % (name, shown(word)))
    value = int(word) if len(word) <= 40 else HIGHEST + 1
    if not LOWEST <= value <= HIGHEST:
        raise Wrong(line, '%s is %s; expected a number from %d to %d, which a plan file can hold' % (name, shown(word), LOWEST, HIGHEST))
    return value


def fields(words, names, line):
    return [None if word == '-' else number(word, name, line) for word, name in zip(words, names)]


def head_number(word, line):
    value = number(word, 'the head number', line)
    if not 0 <= value <= 255:
        raise Wrong(line, 'the head number is %s; expected 0 to 255, which a plan file can hold' % shown(word))
    return value


def record(words, line):
    """The record that the words of a line give."""
    kind = words[0]
    if kind not in FORMS:
        hint = '; a plan file goes with --text' if '\0' in kind else ''
        raise Wrong(line, 'expected box, head or move, found %s%s' % (shown(kind), hint))
    form, count = FORMS[kind]
    if len(words) - 1 != count:
        raise Wrong(line, 'expected %s, found %d word%s after %s' % (form, len(words) - 1, '' if len(words) == 2 else 's', kind))
    if kind == 'box':
        return Record(kind, fields(words[1:], BOX, line), None, line)
    if kind == 'head':
        return Record(kind, fields(words[1:], HEAD, line), None, line)
    return Record(kind, fields(words[2:], HEAD, line), head_number(words[1], line), line)


def parse(data):
    """The plan in the bytes of a text. Raises Wrong."""
    plan = Plan(None, [], [])
    for line, text in enumerate(data.decode('utf-8-sig', 'replace').split('\n'), 1):
        words = text.split('#', 1)[0].split()
        if not words:
            continue
        found = record(words, line)
        if found.kind == 'box':
            if plan.box:
                raise Wrong(line, 'a second box; the first is on line %d' % plan.box.line)
            if plan.heads or plan.moves:
                raise Wrong(line, 'the box comes before the heads and the moves')
            plan.box = found
        elif found.kind == 'head':
            if plan.moves:
                raise Wrong(line, 'the heads come before the moves')
            if len(plan.heads) == MOST_HEADS:
                raise Wrong(line, 'a head too many; a plan file can hold %d, and `rows` takes 10' % MOST_HEADS)
            plan.heads.append(found)
        else:
            plan.moves.append(found)
    plan.box = plan.box or Record('box', [None] * len(BOX))
    return plan


def written(kind, numbers):
    return ' '.join([kind] + ['-' if value is None else str(value) for value in numbers]) + '\n'


def normal(plan):
    """The plan's text in the normal form."""
    lines = [written('box', plan.box.fields)]
    lines += [written('head', head.fields) for head in plan.heads]
    lines += [written('move', [move.head] + move.fields) for move in plan.moves]
    return ''.join(lines)
