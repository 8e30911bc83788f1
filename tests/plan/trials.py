"""Trials of the plan library, with the answers worked out here from document 01 ("Plan file and checks in order", "Edits in
a list") as the requests changed it (a radius begins at 0, and outside its limits it is refused under 11: document 02, slips 3 and 6), and from
nothing of the library's own code.

A trial is a plan file or a call in memory, in the form that the program `cases` reads (crates/cases/src/main.rt).

    trials.py --store     write crates/cases/stdin and crates/cases/stdout: the fixed trials and what they must print
    trials.py COUNT       see that the stored ones are these, hand COUNT random and damaged trials to the program target/bin/cases,
                          and compare every line that it prints
"""
import os
import random
import struct
import subprocess
import sys

ROOT = os.path.dirname(os.path.dirname(os.path.dirname(os.path.abspath(__file__))))

# Document 01's table; document 02, slip 3: a head of radius 0 is closed, and taken like any other; slip 6: "11, a radius below 0 or above 20000".
ENDED, TOO_MANY, BIT, COORDINATE, SIDE, NO_HEAD, TABLES, RADIUS = 1, 2, 3, 4, 5, 6, 7, 11
# Those that a file can have; 7 is of lent tables.
OF_FILES = (ENDED, TOO_MANY, BIT, COORDINATE, SIDE, NO_HEAD, RADIUS)
LIMITS = {'coordinate': (-20000, 20000, COORDINATE), 'side': (1, 40000, SIDE), 'radius': (0, 20000, RADIUS)}
BOX = ['coordinate', 'coordinate', 'side', 'side']
HEAD = ['coordinate', 'coordinate', 'radius']

# The gradients that a call writes: none, those of rows in the box, those of rows without it.
NONE, CLIPPED, OPEN = 0, 1, 2


class Refused(Exception):
    """A refusal: its number and its byte offset."""


class File:
    """The bytes of a plan file, read from the front."""

    def __init__(self, data):
        self.data, self.at = data, 0

    def byte(self):
        if self.at == len(self.data):
            raise Refused(ENDED, len(self.data))
        self.at += 1
        return self.data[self.at - 1]

    def number(self):
        return struct.unpack('<i', bytes(self.byte() for _ in range(4)))[0]

    def record(self, kinds, missing):
        """A map byte, then only the fields whose bit stands, in bit order."""
        place, fields = self.at, self.byte()
        if any(fields >> bit & 1 for bit in range(len(kinds), 8)):
            raise Refused(BIT, place)
        values = list(missing)
        for bit, kind in enumerate(kinds):
            if fields >> bit & 1:
                place, value = self.at, self.number()
                low, high, number = LIMITS[kind]
                if value < low or value > high:
                    raise Refused(number, place)
                values[bit] = value
        return values


def plan_line(n, box, heads):
    heads = heads + [[0, 0, 0]] * (10 - len(heads))
    return 'plan %d %s' % (n, ' '.join('%x' % (v & 0xffffffff) for v in box + sum(heads, [])))


def refusal_line(refused):
    return 'refused %d at %d' % refused.args


def file_lines(data):
    """What the program prints for a plan file."""
    lines, file = [], File(data)
    try:
        n = file.byte()
        if n > 10:
            raise Refused(TOO_MANY, 0)
        box = file.record(BOX, [0, 0, 40000, 40000])
        heads, before = [], [0, 0, 500]
        for _ in range(n):
            before = file.record(HEAD, before)
            heads.append(before)
        lines.append(plan_line(n, box, heads))
        while file.at < len(data):
            place, k = file.at, file.byte()
            if k >= n:
                raise Refused(NO_HEAD, place)
            heads[k] = file.record(HEAD, heads[k])
            lines.append('edit %d %s' % (k, ' '.join('%x' % (v & 0xffffffff) for v in heads[k])))
        answer = ['taken', plan_line(n, box, heads)]
    except Refused as refused:
        answer = [refusal_line(refused)]
    return lines + answer + answer[:1]


def first_outside(kinds, values):
    for kind, value in zip(kinds, values):
        low, high, number = LIMITS[kind]
        if value < low or value > high:
            raise Refused(number, 0)


def check_plan(call):
    if call['n'] > 10:
        raise Refused(TOO_MANY, 0)
    first_outside(BOX, call['box'])
    for head in call['heads'][:call['n']]:
        first_outside(HEAD, head)


def check_edit(call):
    if call['head'] >= call['n']:
        raise Refused(NO_HEAD, 0)
    first_outside(HEAD, call['edit'])


def width(call):
    """The numbers of a gradient row: none, 3n+4 in the box, 3n without it."""
    return {NONE: 0, CLIPPED: 3 * call['n'] + 4, OPEN: 3 * call['n']}[call['kind']]


def check_rows(call):
    if call['rows'] < 2 ** call['n']:
        raise Refused(TABLES, 0)


def check_gradients(call):
    if call['gradients'] < 2 ** call['n'] * width(call):
        raise Refused(TABLES, 0)


def answer_of(call, checks):
    try:
        for check in checks:
            check(call)
        return 'taken'
    except Refused as refused:
        return refusal_line(refused)


def call_lines(call):
    """What the program prints for a call in memory."""
    edit = answer_of(call, [check_plan, check_edit, check_rows])
    heads = [list(h) for h in call['heads']]
    if edit == 'taken':
        heads[call['head']] = list(call['edit'])
    return [answer_of(call, [check_plan]), answer_of(call, [check_plan, check_rows, check_gradients]), edit, edit, plan_line(call['n'], call['box'], heads)]


def of_file(data):
    return b'\0' + struct.pack('<H', len(data)) + data, file_lines(data)


def of_call(call):
    numbers = call['box'] + sum(call['heads'], []) + call['edit']
    data = b'\1' + bytes([call['n'], call['head']]) + struct.pack('<37i', *numbers)
    return data + struct.pack('<B2H', call['kind'], call['rows'], call['gradients']), call_lines(call)


def record(values):
    """A record with the fields that are not None."""
    fields = sum(1 << i for i, v in enumerate(values) if v is not None)
    return bytes([fields]) + b''.join(struct.pack('<i', v) for v in values if v is not None)


def plan_file(box, heads, edits=()):
    data = bytes([len(heads)]) + record(box) + b''.join(record(h) for h in heads)
    return data + b''.join(bytes([k]) + record(h) for k, h in edits)


# ---- the fixed trials

SAMPLE_BOX = [-7, 9, 300, 400]
SAMPLE_HEADS = [[1, 2, 3], [-4, 5, 60], [70, -80, 9]]
SAMPLE_EDITS = [(2, [11, 12, 13]), (0, [-14, 15, 16])]


def at_limits(kind):
    low, high, _ = LIMITS[kind]
    return [low - 1, low, high, high + 1]


def closed_files():
    """Heads that are closed, or nearly: by a field, by the radius of the head before, by an edit; and what is cut off or not quite 0."""
    # a head without a radius has that of the head before, whether or not its place is given; one with a radius ends the row of closed ones
    for fields in range(4):
        bare = [v if fields >> i & 1 else None for i, v in enumerate([21, 22])] + [None]
        yield plan_file(SAMPLE_BOX, [[1, 2, 0], bare])
        yield plan_file(SAMPLE_BOX, [[1, 2, 3], [4, 5, 0], bare, [None, None, 7], bare])
    yield plan_file([None] * 4, [[None, None, 0]] + [[None] * 3] * 9)
    yield plan_file([None] * 4, [[None] * 3, [None, None, 0]] + [[None] * 3] * 8)
    yield plan_file([None] * 4, [[None, None, 0]] + [[None] * 3] * 8 + [[None, None, -1]])
    # an edit closes a head, moves it closed, opens it, and closes one that is closed; the first that is refused refuses the file
    closing = [(1, [None, None, 0]), (1, [30, None, None]), (1, [None, None, 60]), (2, [1, 1, 0]), (2, [None, None, 0]), (2, [None] * 3)]
    sample = plan_file(SAMPLE_BOX, SAMPLE_HEADS, closing)
    yield sample
    for at in range(len(closing)):
        for radius in (-1, 20001):
            yield plan_file(SAMPLE_BOX, SAMPLE_HEADS, closing[:at] + [(closing[at][0], [None, None, radius])] + closing[at:])
    # the same cut short at every byte of its edits
    for end in range(57, len(sample)):
        yield sample[:end]
    # a radius 0 with one bit turned, and a head that has it too
    first = plan_file(SAMPLE_BOX, [[1, 2, 0], [4, 5, None]])
    for bit in range(32):
        number = struct.pack('<I', 1 << bit)
        yield first[:27] + number + first[31:]
    # four bytes of zeros in other places than a radius, and a head of zeros alone
    yield plan_file(SAMPLE_BOX, [[0, 0, 0], [0, None, None], [None, 0, None], [0, 0, 1]])
    yield plan_file([0, 0, 1, 0], [[0, 0, 0]])
    yield plan_file([0, 0, 0, 1], [[0, 0, 0]])


def fixed_files():
    sample = plan_file(SAMPLE_BOX, SAMPLE_HEADS, SAMPLE_EDITS)
    yield sample
    # document 01's example, and its "also run" cases
    yield bytes.fromhex('010C140000000A00000003E8030000E8030000')
    for radius in (20000, 20001, 0, -1):
        yield plan_file([None] * 4, [[None, None, radius]])
    for n in (0, 10, 11):
        yield plan_file([None] * 4, [[None] * 3] * n)
    for side in (40000, 40001):
        yield plan_file([None, None, side, None], [])
        yield plan_file([None, None, None, side], [])
    # every truncation: refusal 1 at every offset
    for end in range(len(sample)):
        yield sample[:end]
    # refusals 4, 5 and 11 at every field, from the first to the last, and the limits themselves
    for part, kinds in [(SAMPLE_BOX, BOX)] + [(h, HEAD) for h in SAMPLE_HEADS] + [(h, HEAD) for _, h in SAMPLE_EDITS]:
        for i, kind in enumerate(kinds):
            kept = part[i]
            for value in at_limits(kind):
                part[i] = value
                yield plan_file(SAMPLE_BOX, SAMPLE_HEADS, SAMPLE_EDITS)
            part[i] = kept
    # refusal 3 at every map byte: every bit without a field
    maps = [(1, 4)] + [(18 + 13 * i, 3) for i in range(3)] + [(58 + 14 * i, 3) for i in range(2)]
    for place, count in maps:
        for bit in range(count, 8):
            yield sample[:place] + bytes([sample[place] | 1 << bit]) + sample[place + 1:]
    # refusal 6 at every edit
    for place in (57, 71):
        for k in (3, 4, 255):
            yield sample[:place] + bytes([k]) + sample[place + 1:]
    # missing fields: every map of every record
    for fields in range(16):
        yield plan_file([v if fields >> i & 1 else None for i, v in enumerate(SAMPLE_BOX)], SAMPLE_HEADS)
    for fields in range(8):
        pick = [v if fields >> i & 1 else None for i, v in enumerate([21, 22, 23])]
        yield plan_file(SAMPLE_BOX, [pick] + SAMPLE_HEADS)
        yield plan_file(SAMPLE_BOX, SAMPLE_HEADS + [pick])
        yield plan_file(SAMPLE_BOX, SAMPLE_HEADS, SAMPLE_EDITS + [(1, pick), (0, pick), (2, [None] * 3)])
    yield from closed_files()
    # several values outside their limits: the first in reading order gives the number, 4, 5, 6 or 11
    for box in ([-7, 9, 300, 400], [-7, 9, 0, 400], [-7, 9, 300, 40001], [-7, 20001, 0, 0]):
        for heads in ([[1, 2, -1]], [[1, 2, 20001], [20001, 5, 60]], [[1, 2, 3], [-4, -20001, -1]], [[1, 2, 3], [4, 5, -1], [6, 7, 20001]]):
            yield plan_file(box, heads)
        yield plan_file(box, [[1, 2, 3]], [(1, [1, 2, -1])])
        yield plan_file(box, [[1, 2, 3]], [(0, [1, 2, -1]), (9, [1, 2, 3])])
        yield plan_file(box, [[1, 2, 3]], [(0, [1, 20001, 20001])])
    # the largest file without edits, and many edits
    yield plan_file([0, 0, 1, 1], [[i, -i, i + 1] for i in range(10)])
    yield plan_file(SAMPLE_BOX, SAMPLE_HEADS, [(i % 3, [i, None, None]) for i in range(40)])


def call(**changes):
    heads = [list(h) for h in SAMPLE_HEADS] + [[99, 99, 99]] * 7
    made = dict(n=3, head=1, box=list(SAMPLE_BOX), heads=heads, edit=[6, 7, 8], kind=CLIPPED, rows=8, gradients=104)
    made.update(changes)
    return made


def fixed_calls():
    yield call()
    for n in (0, 1, 2, 10, 11, 255):
        yield call(n=n)
    for i, kind in enumerate(BOX):
        for value in at_limits(kind):
            yield call(box=SAMPLE_BOX[:i] + [value] + SAMPLE_BOX[i + 1:])
    for head in (0, 1, 2, 3):
        for i, kind in enumerate(HEAD):
            for value in at_limits(kind):
                made = call()
                made['heads'][head] = made['heads'][head][:i] + [value] + made['heads'][head][i + 1:]
                yield made
    for i, kind in enumerate(HEAD):
        for value in at_limits(kind):
            yield call(edit=[6, 7, 8][:i] + [value] + [6, 7, 8][i + 1:])
    for head in (0, 2, 3, 9, 10, 255):
        yield call(head=head)
    for rows, gradients in ((7, 104), (8, 103), (7, 103), (9, 105), (0, 0)):
        yield call(rows=rows, gradients=gradients)
    for kind, gradients in ((NONE, 0), (OPEN, 71), (OPEN, 72), (OPEN, 73), (CLIPPED, 65535)):
        yield call(kind=kind, gradients=gradients)
    # each number of heads, its rows and one fewer, its gradients and one fewer
    for n in range(11):
        for kind in (NONE, CLIPPED, OPEN):
            made = call(n=n, head=0, kind=kind, rows=2 ** n)
            enough = 2 ** n * width(made)
            yield dict(made, gradients=enough)
            yield dict(made, gradients=enough, rows=2 ** n - 1)
            if enough:
                yield dict(made, gradients=enough - 1)
    # of several failed checks the first in reading order
    yield call(n=11, box=[30000, 0, 0, 0], head=200, edit=[30000, 0, 0], rows=0)
    yield call(box=[30000, 0, 0, 0], head=200, edit=[30000, 0, 0], rows=0)
    yield call(box=[0, 0, 0, 0], head=200, edit=[30000, 0, 0], rows=0)
    yield call(head=200, edit=[30000, 0, 0], rows=0)
    yield call(edit=[30000, 0, 0], rows=0)
    yield call(edit=[0, 0, -1], rows=0)
    yield call(edit=[0, 0, 0], rows=0)
    for box in (SAMPLE_BOX, [-7, 9, 0, 400], [-7, 9, 300, 40001]):
        for heads in ([[1, 2, -1]], [[1, 2, 20001], [20001, 5, 60]], [[1, -20001, -1]], [[1, 2, 3]]):
            filled = heads + [[1, 2, 3]] * (10 - len(heads))
            yield call(n=2, head=1, box=box, heads=filled, edit=[0, 0, -1])
            yield call(n=2, head=2, box=box, heads=filled, edit=[20001, 0, -1], rows=3)
    # all heads closed, and an edit of one of them, which opens it or does not
    for n in (1, 2, 10):
        for radius in (-1, 0, 1):
            yield call(n=n, head=n - 1, heads=[[i, -i, 0] for i in range(10)], edit=[5, 6, radius], kind=NONE, rows=1024, gradients=0)


# ---- random trials

def near(chance, kind):
    low, high, _ = LIMITS[kind]
    pick = chance.random()
    if pick < 0.06:
        return chance.choice([low - 1, high + 1, -2**31, 2**31 - 1, low - 256, high + 65536])
    if pick < 0.3:
        return chance.choice([low, high, low + 1, high - 1])
    return chance.randint(low, high)


def random_record(chance, kinds):
    return [near(chance, kind) if chance.random() < 0.7 else None for kind in kinds]


def within(chance, kinds):
    """A record within the limits; one given radius in six is that of a closed head."""
    value = lambda kind: 0 if kind == 'radius' and chance.random() < 1 / 6 else chance.randint(*LIMITS[kind][:2])
    return [value(kind) if chance.random() < 0.7 else None for kind in kinds]


def random_file(chance, of):
    n = chance.randint(0, 10)
    edits = [(chance.randrange(n), of(chance, HEAD)) for _ in range(chance.randint(0, 5))] if n else []
    return plan_file(of(chance, BOX), [of(chance, HEAD) for _ in range(n)], edits)


def damaged(chance, data):
    data = bytearray(data)
    for _ in range(chance.randint(1, 3)):
        at = chance.randrange(len(data)) if data else 0
        kind = chance.randrange(3)
        if kind == 0 and data:
            data[at] = chance.choice([0, 1, 3, 7, 8, 15, 16, 255, chance.randrange(256)])
        elif kind == 1:
            data.insert(at, chance.randrange(256))
        elif data:
            del data[at]
    return bytes(data)


def random_call(chance):
    rows = lambda: chance.choice([0, 1, 2, 7, 8, 9, 1023, 1024, 1025, chance.randrange(65536)])
    made = call(
        n=chance.choice([0, 1, 2, 3, 9, 10, 10, 10, 11, chance.randrange(256)]),
        head=chance.choice([0, 0, 1, 2, 9, 10, chance.randrange(256)]),
        box=[near(chance, kind) for kind in BOX] if chance.random() < 0.5 else list(SAMPLE_BOX),
        edit=[near(chance, kind) for kind in HEAD],
        kind=chance.choice([NONE, CLIPPED, OPEN]), rows=rows(), gradients=chance.choice([0, rows(), chance.randrange(65536)]))
    if chance.random() < 0.5 and made['n'] <= 10:
        made['gradients'] = max(0, 2 ** made['n'] * width(made) - chance.randrange(2))
        made['rows'] = max(0, 2 ** made['n'] - chance.choice([0, 0, 1]))
    made['heads'] = [[near(chance, kind) for kind in HEAD] if chance.random() < 0.3 else [1, 2, 3] for _ in range(10)]
    return made


KINDS = {
    'files within the limits': lambda chance: of_file(random_file(chance, within)),
    'files with values at and past the limits': lambda chance: of_file(random_file(chance, random_record)),
    'files cut short': lambda chance: of_file((lambda d: d[:chance.randint(0, len(d))])(random_file(chance, within))),
    'files with bytes changed, added or taken': lambda chance: of_file(damaged(chance, random_file(chance, within))),
    'files of random bytes': lambda chance: of_file(bytes(chance.choice([chance.randrange(256), chance.randrange(8), 0]) for _ in range(chance.randint(0, 40)))),
    'calls in memory': lambda chance: of_call(random_call(chance)),
}


def run(trials):
    """What the program prints for each of the trials, whose bytes fit in one input."""
    program = os.path.join(ROOT, 'target', 'bin', 'cases')
    done = subprocess.run([program], input=b''.join(data for data, _ in trials), capture_output=True, check=True)
    return done.stdout.decode().split('\n')


def compare(trials):
    """1 if the program answers one of the trials otherwise, and that one is printed."""
    printed, at = run(trials), 0
    for data, lines in trials:
        got = printed[at:at + len(lines)]
        at += len(lines)
        if got != lines:
            print('differs: %s\n  worked out: %s\n  printed:    %s' % (data.hex(), lines, got))
            return 1
    return int(printed[at:] != [''])


def stored():
    """The stored files, and what each is to hold."""
    trials = [of_file(data) for data in fixed_files()] + [of_call(made) for made in fixed_calls()]
    data = b''.join(data for data, _ in trials)
    if len(data) > 65536:
        sys.exit('the fixed trials have %d bytes' % len(data))
    lines = ''.join(line + '\n' for _, lines in trials for line in lines)
    folder = os.path.join(ROOT, 'crates', 'cases')
    print('%7d fixed trials' % len(trials))
    return {os.path.join(folder, 'stdin'): data, os.path.join(folder, 'stdout'): lines.encode()}


def store():
    for path, data in stored().items():
        with open(path, 'wb') as out:
            out.write(data)


def main():
    if sys.argv[1:] == ['--store']:
        return store()
    count, chance, differ, made = int(sys.argv[1]), random.Random(20000), 0, {}
    for path, data in stored().items():
        if open(path, 'rb').read() != data:
            sys.exit('%s is not what trials.py --store writes' % path)
    batch, size = [], 0
    for i in range(count):
        kind = list(KINDS)[i % len(KINDS)]
        trial = KINDS[kind](chance)
        made[kind] = made.get(kind, 0) + 1
        if size + len(trial[0]) > 65536:
            differ += compare(batch)
            batch, size = [], 0
        batch.append(trial)
        size += len(trial[0])
    differ += compare(batch)
    for kind, number in made.items():
        print('%7d %s' % (number, kind))
    print('%d trials compared, %s' % (count, '%d batches differ' % differ if differ else '0 differences'))
    sys.exit(1 if differ else 0)


if __name__ == '__main__':
    main()
