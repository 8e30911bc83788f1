"""The plan file (document 01, "Plan file and checks in order"): the number of heads, the box, the heads, then edits to the end.

Each record is a map byte and then only the fields whose bit stands. A field that is left out is None here, so that a file
that is read and written again is the same file. Nothing is held against the limits: that is what `rows` is for.
"""
import struct
from dataclasses import dataclass, field

BOX = ('centre x', 'centre y', 'width', 'height')
HEAD = ('x', 'y', 'radius')
MOST_HEADS = 255        # that byte 0 can say; `rows` takes 10


class Damaged(Exception):
    """The file cannot be read on: the byte offset, and what is wrong there."""


@dataclass
class Record:
    """The box, a head, or a move (an edit) of the head numbered `head`; `line` is where the text has it."""
    kind: str
    fields: list
    head: int = None
    line: int = field(default=None, compare=False)


@dataclass
class Plan:
    box: Record
    heads: list
    moves: list

    def records(self):
        return [self.box] + self.heads + self.moves


@dataclass
class Place:
    """What stands at a byte offset: a record's field, by its index, or a move's head number."""
    record: Record
    index: int = None


def encode(plan):
    """The bytes of the plan, and the Place at each offset that a refusal of a value can name."""
    data, places = bytearray([len(plan.heads)]), {}
    for record in plan.records():
        if record.kind == 'move':
            places[len(data)] = Place(record)
            data.append(record.head)
        data.append(sum(1 << bit for bit, value in enumerate(record.fields) if value is not None))
        for index, value in enumerate(record.fields):
            if value is not None:
                places[len(data)] = Place(record, index)
                data += struct.pack('<i', value)
    return bytes(data), places


class Reader:
    """The bytes of a file, from the front."""

    def __init__(self, data):
        self.data, self.at = data, 0

    def take(self, count, wanted):
        if self.at + count > len(self.data):
            raise Damaged(len(self.data), 'the file has ended within %s' % wanted if self.data else 'the file is empty')
        self.at += count
        return self.data[self.at - count:self.at]

    def record(self, kind, names, wanted, head=None):
        place = self.at
        bits = self.take(1, wanted)[0]
        if bits >> len(names):
            raise Damaged(place, 'the map byte of %s is %d; only its lowest %d bits have a field' % (wanted, bits, len(names)))
        fields = [struct.unpack('<i', self.take(4, wanted))[0] if bits >> bit & 1 else None for bit in range(len(names))]
        return Record(kind, fields, head)


def decode(data):
    """The plan in the bytes of a file. Raises Damaged."""
    reader = Reader(data)
    count = reader.take(1, 'the number of heads')[0]
    box = reader.record('box', BOX, 'the box')
    heads = [reader.record('head', HEAD, 'head %d of %d' % (number, count)) for number in range(count)]
    moves = []
    while reader.at < len(data):
        head = reader.take(1, 'an edit')[0]
        moves.append(reader.record('move', HEAD, 'edit %d' % (len(moves) + 1), head))
    return Plan(box, heads, moves)


def filled(fields, missing):
    return [missing[i] if value is None else value for i, value in enumerate(fields)]


def values(plan):
    """The box, the heads, and the moves as (head number, fields), with document 01's values for those left out. A move of a head
    that the plan does not have stays as it is, since nothing says what it leaves unchanged."""
    box = filled(plan.box.fields, [0, 0, 40000, 40000])
    heads, before = [], [0, 0, 500]
    for record in plan.heads:
        before = filled(record.fields, before)
        heads.append(before)
    now, moves = list(heads), []
    for record in plan.moves:
        if record.head < len(now):
            now[record.head] = filled(record.fields, now[record.head])
            moves.append((record.head, now[record.head]))
        else:
            moves.append((record.head, record.fields))
    return box, heads, moves


def heads_after(plan, count=None):
    """The heads after the first `count` moves, or after all; moves of heads that the plan does not have count for nothing."""
    _, heads, moves = values(plan)
    for k, place in moves[:count]:
        if k < len(heads):
            heads[k] = place
    return heads


def full(plan):
    """The same plan with every value in it."""
    box, heads, moves = values(plan)
    return Plan(Record('box', box), [Record('head', head) for head in heads], [Record('move', fields, head) for head, fields in moves])
