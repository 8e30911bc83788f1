"""Trials of tools/plan. What a file holds and what `rows` answers is worked out from document 01 by tests/plan/trials.py, which
knows nothing of the tool.

    plans_trials.py COUNT ROWS      COUNT plan files and COUNT texts; ROWS is the program rows
"""
import os
import random
import re
import subprocess
import sys
import tempfile
import xml.dom.minidom

ROOT = os.path.dirname(os.path.dirname(os.path.dirname(os.path.abspath(__file__))))
sys.path[:0] = [os.path.join(ROOT, 'tests', 'plan'), os.path.join(ROOT, 'tools')]
import trials  # noqa: E402
from plans import file, table, text  # noqa: E402

TOOL = os.path.join(ROOT, 'tools', 'plan')
WHOLE = {kind: (-2**31, 2**31 - 1, 0) for kind in trials.LIMITS}
COUNTS = {}


def expect(what, got, wanted):
    """Counts a comparison, and ends the run at the first that fails."""
    COUNTS[what] = COUNTS.get(what, 0) + 1
    if got != wanted:
        sys.exit('%s:\n  worked out: %r\n  got:        %r' % (what, wanted, got))


# ---- plan files

def records(data):
    """The records of a file as trials.py reads them, with no limits: (word, numbers, None for a field left out), or its refusal."""
    limits, trials.LIMITS = trials.LIMITS, WHOLE
    try:
        source = trials.File(data)
        count = source.byte()
        found = [('box', source.record(trials.BOX, [None] * 4))]
        found += [('head', source.record(trials.HEAD, [None] * 3)) for _ in range(count)]
        while source.at < len(data):
            found.append(('move', [source.byte()] + source.record(trials.HEAD, [None] * 3)))
        return found
    except trials.Refused as refused:
        return refused
    finally:
        trials.LIMITS = limits


def text_of(found):
    return ''.join('%s %s\n' % (word, ' '.join('-' if v is None else str(v) for v in numbers)) for word, numbers in found)


def file_trial(data):
    """A plan file to text and back: the same file; or an error at the place where document 01 says it cannot be read on."""
    found = records(data)
    try:
        plan = file.decode(data)
    except file.Damaged as damaged:
        return expect('damaged files: the offset', damaged.args[0], found.args[1] if isinstance(found, trials.Refused) else 'no damage')
    if isinstance(found, trials.Refused):
        return expect('damaged files: the offset', 'read', found.args[1])
    normal = text.normal(plan)
    expect('files to text', normal, text_of(found))
    again = file.encode(text.parse(normal.encode()))[0]
    expect('files to text and back: the same bytes', again, data)
    expect('files to text and back: the same plan, edits and answer', trials.file_lines(again), trials.file_lines(data))
    full = file.encode(file.full(plan))[0]
    unrefused = lambda data: [line for line in trials.file_lines(data) if not line.startswith('refused')]
    expect('files with their values in full: the same plan and edits', unrefused(full), unrefused(data))


FILES = [kind for name, kind in trials.KINDS.items() if name.startswith('files')]


def random_file(chance):
    pick = chance.randrange(20)
    if pick == 0:       # more heads than are taken
        heads = [trials.random_record(chance, trials.HEAD) for _ in range(chance.choice([11, 12, 255]))]
        return trials.plan_file(trials.random_record(chance, trials.BOX), heads)
    if pick == 1:       # edits of heads that are not there
        heads = [trials.within(chance, trials.HEAD) for _ in range(chance.randint(0, 9))]
        edits = [(chance.randrange(256), trials.within(chance, trials.HEAD)) for _ in range(3)]
        return trials.plan_file(trials.within(chance, trials.BOX), heads, edits)
    return chance.choice(FILES)(chance)[0][3:]


# ---- texts

def random_records(chance):
    of = chance.choice([trials.within, trials.random_record])
    heads = [of(chance, trials.HEAD) for _ in range(chance.choice([0, 1, 2, 3, 5, 10, 11]))]
    edits = [(chance.choice([0, 1, 2, 9, 10, 255]), of(chance, trials.HEAD)) for _ in range(chance.choice([0, 0, 1, 3]))]
    return of(chance, trials.BOX), heads, edits


def word(chance, value):
    """A number as a person may write it."""
    if value is None:
        return '-'
    sign = '-' if value < 0 else chance.choice(['', '', '', '+'])
    return sign + chance.choice(['', '', '', '0', '00']) + str(abs(value))


def loose_text(chance, box, heads, edits):
    """The text as a person may write it, and the number of the line that each record stands on."""
    lines, at = [], {}
    noise = lambda: chance.choice(['', '', '  ', '\t', '# note', '  # box 1 2 3 4', '\r'])
    skip = lambda: lines.extend(noise() for _ in range(chance.choice([0, 0, 0, 1, 2])))

    def put(name, words):
        at[name] = len(lines) + 1
        lines.append(chance.choice(['', ' ', '\t']) + chance.choice([' ', '  ', '\t']).join(words) + chance.choice(['', ' ', '\r', ' # x', '#']))

    skip()
    if box != [None] * 4 or chance.random() < 0.5:
        put('box', ['box'] + [word(chance, v) for v in box])
    for i, head in enumerate(heads):
        skip()
        put(('head', i), ['head'] + [word(chance, v) for v in head])
    for i, (k, fields) in enumerate(edits):
        skip()
        put(('move', i), ['move', word(chance, k)] + [word(chance, v) for v in fields])
    return chance.choice(['', '\ufeff']) + '\n'.join(lines) + chance.choice(['', '\n', '\n\n']), at


# Document 01's limits, a radius from 0 since document 02, slip 3.
PLACE, SIDE, RADIUS = '-20000 to 20000', '1 to 40000', '0 to 20000'
OF_BOX = [('centre x', PLACE), ('centre y', PLACE), ('width', SIDE), ('height', SIDE)]
OF_HEAD = [('x', PLACE), ('y', PLACE), ('radius', RADIUS)]


def place_of(offset, box, heads, edits):
    """The record that stands at an offset, by the lengths of the records, and what a refusal there must say in words."""
    records = [('box', box, OF_BOX, 'of the box', None)]
    records += [(('head', i), head, OF_HEAD, 'of head %d' % i, None) for i, head in enumerate(heads)]
    records += [(('move', i), to, OF_HEAD, 'that this move gives head %d' % k, k) for i, (k, to) in enumerate(edits)]
    at = 1
    for name, values, fields, whose, moved in records:
        if moved is not None:
            if offset == at:
                return name, 'a move of head %d' % moved
            at += 1
        at += 1     # the map byte
        for (field, limits), value in zip(fields, values):
            if value is not None and offset == at:
                return name, 'the %s %s is %d, outside %s' % (field, whose, value, limits)
            at += 4 * (value is not None)
    sys.exit('no value stands at %d' % offset)


def text_trial(chance):
    box, heads, edits = random_records(chance)
    written, at = loose_text(chance, box, heads, edits)
    plan = text.parse(written.encode())
    data, places = file.encode(plan)
    expect('texts to bytes', data, trials.plan_file(box, heads, edits))
    normal = text.normal(plan)
    expect('texts in normal form to bytes to text: the same text', text.normal(file.decode(data)), normal)
    refused = re.fullmatch('refused ([0-9]+) at ([0-9]+)', trials.file_lines(data)[-1])
    expect('texts: taken, or the refusal', table.refusal(plan, places), refused and (int(refused.group(1)), int(refused.group(2))))
    if refused:
        number, offset = int(refused.group(1)), int(refused.group(2))
        name, words = (('head', 10), 'the plan has 11 heads') if number == 2 else place_of(offset, box, heads, edits)
        line, said = table.in_words(number, offset, plan, places).args
        expect('refusals of texts: the line', line, at[name])
        expect('refusals of texts: the words', said.startswith('refused %d at %d: %s' % (number, offset, words)), True)


# ---- the command line

def run(arguments, data=b''):
    done = subprocess.run([sys.executable, '-B', TOOL] + arguments, input=data, capture_output=True)
    return done.returncode, done.stdout, done.stderr.decode()


def fails(arguments, data, status, words):
    """The command fails with this status and these words, and writes nothing."""
    got, out, error = run(arguments, data)
    expect('errors: status, words, and nothing written', (got, out, words in error, 'Traceback' in error), (status, b'', True, False))


ERRORS = [
    ('box 0 0 1 1\nhed 1 2 3\n', ':2: expected box, head or move, found hed'),
    ('head 1 2\n', ':1: expected head X Y RADIUS, found 2 words after head'),
    ('\n# c\nhead 1 2 3 4 # d\n', ':3: expected head X Y RADIUS, found 4 words'),
    ('box 1 2 3\n', ':1: expected box CENTRE-X CENTRE-Y WIDTH HEIGHT, found 3 words'),
    ('box\n', ':1: expected box CENTRE-X CENTRE-Y WIDTH HEIGHT, found 0 words'),
    ('move 1 2 3\n', ':1: expected move HEAD X Y RADIUS'),
    ('head 1 2 3\nbox 1 2 3 4\n', ':2: the box comes before'),
    ('box 1 2 3 4\nbox 1 2 3 4\n', ':2: a second box; the first is on line 1'),
    ('head 1 2 3\nmove 0 1 2 3\nhead 1 2 3\n', ':3: the heads come before the moves'),
    ('head 1 2.5 3\n', ':1: expected a whole number for y, found 2.5'),
    ('head 1 2 3m\n', ':1: expected a whole number for radius, found 3m'),
    ('head 1_0 2 3\n', ':1: expected a whole number for x, found 1_0'),
    ('head ١ 2 3\n', ':1: expected a whole number for x'),
    ('head -- 2 3\n', ':1: expected a whole number for x, found --'),
    ('head 2147483648 2 3\n', ':1: x is 2147483648; expected a number from -2147483648 to 2147483647'),
    ('head 0 -2147483649 3\n', ':1: y is -2147483649'),
    ('head 0 0 %s\n' % ('9' * 5000), ':1: radius is 99999'),
    ('move 256 2 3 4\n', ':1: the head number is 256; expected 0 to 255'),
    ('move -1 2 3 4\n', ':1: the head number is -1; expected 0 to 255'),
    ('move - 2 3 4\n', ':1: expected a whole number for the head number, found -'),
    ('head 0 0 1\n' * 256, ':256: a head too many'),
]

USAGE = ['', '--text', '--text --table x', '--nonsense x', '--full x', '--set 0 x', '--svg --set a x', '--svg --set 0,,1 x', '--svg --edit -1 x',
         '--svg --edit one x', '--rows p x', 'x y', '--table --zoom 0 x', '--why --text x', '--svg --library l x', '--why --rows p x']

NO_ROWS = ['true', 'false', 'echo 00', 'echo 001 400000000000000', 'printf "000 4000000000000000"',
           'echo 000 4000000000000000; echo refused 1 at 2', 'echo no >&2']

REFUSALS = [
    ('head 0 0 20001\n', ':1: refused 11 at 11: the radius of head 0 is 20001, outside 0 to 20000\n'),
    ('head 0 0 -1\n', ':1: refused 11 at 11: the radius of head 0 is -1, outside 0 to 20000; a head is closed by radius 0\n'),
    ('head 0 0 0\nhead 1 1 -\nhead 1 1 -7\n', ':3: refused 11 at 33: the radius of head 2 is -7, outside 0 to 20000; a head is closed by radius 0\n'),
    ('box - - 40001 -\n', ':1: refused 5 at 2: the width of the box is 40001, outside 1 to 40000'),
    ('box 0 0 1 0\nhead 0 0 -1\n', ':1: refused 5 at 14: the height of the box is 0, outside 1 to 40000\n'),
    ('box 0 0 1 1\nhead 0 0 1\nhead 0 20001 -1\n', ':3: refused 4 at 36: the y of head 1 is 20001, outside -20000 to 20000\n'),
    ('head 0 0 -1\nhead 0 20001 1\n', ':1: refused 11 at 11: the radius of head 0 is -1, outside 0 to 20000'),
    ('# a\nbox 1 -20001 1 1\n', ':2: refused 4 at 6: the centre y of the box is -20001, outside -20000 to 20000'),
    ('head 0 0 1\n\nmove 0 - 0 0\nmove 0 - - -1\n', ':4: refused 11 at 27: the radius that this move gives head 0 is -1, outside 0 to 20000; a head is closed by radius 0\n'),
    ('head 0 0 1\nmove 0 -20001 - -1\n', ':2: refused 4 at 17: the x that this move gives head 0 is -20001, outside -20000 to 20000\n'),
    ('head 0 0 1\nmove 1 0 0 1\n', ':2: refused 6 at 15: a move of head 1, but the plan has only head 0'),
    ('move 0 0 0 1\n', ':1: refused 6 at 2: a move of head 0, but the plan has no heads'),
    ('head 0 0 1\n' * 11, ':11: refused 2 at 0: the plan has 11 heads, at most 10 are taken'),
    ('head 0 0 1\nhead 9 9 9\nmove 3 0 0 20001\n', ':3: refused 6 at 28: a move of head 3, but the plan has heads 0 to 1'),
]

SAMPLE = 'box 0 0 4000 3000\nhead -700 200 900\nhead 500 300 1000\nhead 100 -700 800\nmove 1 700 - -\n'


def command_trials(chance, folder, rows):
    path = os.path.join(folder, 'ground.txt')
    with open(path, 'w') as out:
        out.write(SAMPLE)
    data = trials.plan_file([0, 0, 4000, 3000], [[-700, 200, 900], [500, 300, 1000], [100, -700, 800]], [(1, [700, None, None])])
    expect('commands', run([path]), (0, data, ''))
    expect('commands', run(['-'], SAMPLE.encode()), (0, data, ''))
    expect('commands', run(['--text', '-'], data), (0, SAMPLE.encode(), ''))
    expect('commands', run(['--text', '--full', '-'], data), (0, SAMPLE.replace('700 - -', '700 300 1000').encode(), ''))
    expect('commands', [run(['--help'])[i] for i in (0, 2)], [0, ''])
    for words, wanted in ERRORS:
        fails(['-'], words.encode(), 1, 'standard input' + wanted)
    for arguments in USAGE:
        fails(arguments.split(), b'', 2, 'plan: error: ')
    fails([os.path.join(folder, 'missing')], b'', 1, 'No such file')
    fails([folder], b'', 1, 'cannot read')
    fails(['-'], data, 1, 'a plan file goes with --text')
    fails(['--text', '-'], b'', 1, 'byte 0: the file is empty')
    fails(['--text', '-'], data[:30], 1, 'byte 30: the file has ended within head 0 of 3')
    fails(['--text', '-'], data[:1] + b'\x1f' + data[2:], 1, 'byte 1: the map byte of the box is 31')
    fails(['--table', '--rows', os.path.join(folder, 'missing'), '-'], b'', 1, 'cannot run')
    for words in NO_ROWS:
        other = os.path.join(folder, 'other')
        with open(other, 'w') as out:
            out.write('#!/bin/sh\ncat >/dev/null\n%s\n' % words)
        os.chmod(other, 0o755)
        fails(['--table', '--rows', other, path], b'', 1, 'plan: ')
    with open('/dev/full', 'wb') as full:
        done = subprocess.run([sys.executable, '-B', TOOL, path], stdout=full, stderr=subprocess.PIPE)
        expect('errors: status, words, and nothing written', (done.returncode, b'cannot write' in done.stderr), (1, True))
    for words, wanted in REFUSALS:
        fails([chance.choice(['--table', '--svg']), '--rows', rows, '-'], words.encode(), 1, 'standard input' + wanted)


# Heads closed by their own radius, by that of the head before and by a move, and one that a move opens: those that are closed after the last move.
CLOSED = [
    ('head 0 0 0\n', [0]),
    ('box 0 0 2000 1000\nhead 9 9 0\nhead - - -\nhead 0 0 500\n', [0, 1]),
    ('head 0 0 0\nhead 1 1 -\nhead - - 5\nhead - - -\nhead 2 2 0\n', [0, 1, 4]),
    ('head 0 0 300\nhead 50 0 300\nmove 1 - - 0\n', [1]),
    ('head 0 0 300\nhead 50 0 0\nhead 1 1 0\nmove 1 - - 20\nmove 0 9 - -\n', [2]),
    ('head 0 0 300\nhead 50 0 300\nmove 1 - - 0\nmove 1 7 7 -\nmove 1 - - 1\n', []),
    ('head 0 0 0\n' + 'head - - -\n' * 9, list(range(10))),
]


def closed_trials(rows):
    """Closed heads in texts, files and tables: the same text and bytes again; no row has one, and each is named below the table."""
    expect('closed heads: bytes', run(['-'], b'head 0 0 0\n'), (0, bytes.fromhex('01 00 07 00000000 00000000 00000000'), ''))
    expect('closed heads: text', run(['--text', '-'], bytes.fromhex('01 00 07 00000000 00000000 00000000')), (0, b'box - - - -\nhead 0 0 0\n', ''))
    for words, closed in CLOSED:
        written = words if words.startswith('box') else 'box - - - -\n' + words
        data = run(['-'], words.encode())[1]
        expect('closed heads: the same text again', run(['--text', '-'], data), (0, written.encode(), ''))
        status, out, error = run(['--table', '--rows', rows, '-'], words.encode())
        expect('closed heads: status of tables', (status, error), (0, ''))
        lines = out.decode().splitlines()
        told = [line for line in lines if line.startswith('closed')]
        named = ', '.join(str(i) for i in closed)
        wanted = ['closed, in no row: head%s %s' % ('s' if len(closed) > 1 else '', named)] if closed else []
        expect('closed heads: named below the table', (told, told == wanted and lines[len(lines) - len(told):] == told), (wanted, True))
        masks = [int(line.split()[0], 16) for line in lines[1:len(lines) - len(told)]]
        others = [i for i in range(words.count('head')) if i not in closed]
        expect('closed heads: singles of the others alone', [mask for mask in masks if mask & (mask - 1) == 0], [0] + [1 << i for i in others])
        expect('closed heads: in no row', [mask for mask in masks if any(mask >> i & 1 for i in closed)], [])


# Plan files with a bad value: what `rows` prints, and what tools/plan says of the file's text. README shows the first, text and all.
REFUSED_FILES = [
    ([0, 0, 4000, 3000], [[100, 200, 500], [-600, 0, -300]], [], 'refused 11 at 40',
     'standard input:3: refused 11 at 40: the radius of head 1 is -300, outside 0 to 20000; a head is closed by radius 0'),
    ([0, 0, 0, 3000], [[100, 200, 500]], [], 'refused 5 at 10', 'standard input:1: refused 5 at 10: the width of the box is 0, outside 1 to 40000'),
    ([None, None, None, 40001], [[1, 2, -1]], [], 'refused 5 at 2', 'standard input:1: refused 5 at 2: the height of the box is 40001, outside 1 to 40000'),
    ([None] * 4, [[None, None, 20001]], [], 'refused 11 at 3', 'standard input:2: refused 11 at 3: the radius of head 0 is 20001, outside 0 to 20000'),
    ([None] * 4, [[1, 2, 3]], [(0, [4, 5, 20001])], 'refused 11 at 25',
     'standard input:3: refused 11 at 25: the radius that this move gives head 0 is 20001, outside 0 to 20000'),
]


def refused_file_trials(rows):
    for box, heads, edits, printed, words in REFUSED_FILES:
        data = trials.plan_file(box, heads, edits)
        done = subprocess.run([rows], input=data, capture_output=True)
        expect('refused files: what rows prints', done.stdout.decode(), printed + '\n')
        expect('refused files: what it is to print', trials.file_lines(data)[-1], printed)
        status, out, error = run(['--text', '-'], data)
        expect('refused files: their text', (status, error), (0, ''))
        expect('refused files: in words', run(['--table', '--rows', rows, '-'], out), (1, b'', 'plan: %s\n' % words))
    box, heads, edits, printed, words = REFUSED_FILES[0]
    written = run(['--text', '-'], trials.plan_file(box, heads, edits))[1].decode()
    shown = ''.join('    %s\n' % line for line in (
        '$ cat bad.txt', *written.splitlines(), '$ tools/plan bad.txt > bad.plan', '$ tools/rows < bad.plan', printed,
        '$ tools/plan --text bad.plan | tools/plan --table -', 'plan: ' + words))
    with open(os.path.join(ROOT, 'README.md')) as readme:
        expect('refused files: as README shows', shown in readme.read(), True)


def table_trial(rows):
    """The table of a plan whose areas are known: a box of 20 m by 10 m, a head that covers it, and one that lies outside."""
    words = 'box 0 0 2000 1000\nhead 0 0 20000\nhead 0 15000 1\n'
    status, out, error = run(['--table', '--rows', rows, '-'], words.encode())
    expect('tables', (status, error), (0, ''))
    lines = out.decode().split('\n')
    wanted = [['row', 'heads', 'area', 'm²'], ['000', 'none', '0.0000'], ['001', '0', '200.0000'], ['002', '1', '0.0000']]
    expect('tables', [line.split() for line in lines if line][:4], wanted)
    expect('tables: columns line up', len({len(line) for line in lines if line}), 1)


def drawn_of(rows, words, *options):
    """The circles of a picture, [x, y, radius, whether it is filled], its words, and its numbers of heads with their style."""
    status, out, error = run(['--svg', '--rows', rows] + list(options) + ['-'], words.encode())
    expect('rings: status', (status, error), (0, ''))
    drawn = xml.dom.minidom.parseString(out)
    named = lambda node: [node.getAttribute(name) for name in ('cx', 'cy', 'r')] + [node.getAttribute('fill') not in ('', 'none')]
    circles = [named(node) for node in drawn.getElementsByTagName('circle') if node.parentNode.tagName != 'clipPath']
    texts = [node for node in drawn.getElementsByTagName('text') if node.firstChild]
    numbers = [(node.firstChild.data, node.getAttribute('font-style')) for node in texts if node.getAttribute('paint-order')]
    return circles, [node.firstChild.data for node in texts], sorted(numbers)


def ring_trials(rows):
    """A closed head is a ring of 6 pixels with nothing in it, at its centre and whatever the scale, its number in italics; an open one a circle of its
    radius, with a dot and an upright number. The key explains the ring where there is one."""
    key = 'closed, radius 0: waters nothing'
    for scale in (1, 30):
        box, middle = 'box 0 0 %d %d\n' % (600 * scale, 600 * scale), lambda radius: box + 'head 0 0 %d\nhead %d 0 %d\n' % (radius, 200 * scale, 100 * scale)
        circles, words, numbers = drawn_of(rows, middle(0))
        expect('rings: of the head and of the key, not filled', [circle[3] for circle in circles if circle[2] == '6'], [False, False])
        expect('rings: a dot for the other head', [circle[3] for circle in circles if circle[2] == '2.6'], [True])
        expect('rings: its circles, water and outlines', [float(circle[2]) > 20 for circle in circles if circle[2] not in ('6', '2.6')], [True] * 3)
        expect('rings: numbers', numbers, [('0', 'italic'), ('1', '')])
        expect('rings: the key', words.count(key), 1)
        circles, words, numbers = drawn_of(rows, middle(100 * scale))
        expect('rings: none where no head is closed', ([circle for circle in circles if circle[2] == '6'], words.count(key)), ([], 0))
        expect('rings: dots and numbers then', (sum(circle[2] == '2.6' for circle in circles), numbers), (2, [('0', ''), ('1', '')]))
    # before and after a move that closes a head, and one that opens it: a ring in one of the panels, and one, broken, where it was
    for radius, to, said, rings in ((500, 0, 'was closed', 2), (0, 500, 'was opened', 3)):
        circles, words, _ = drawn_of(rows, 'head 0 0 %d\nhead 9000 0 700\nmove 0 - - %d\n' % (radius, to))
        expect('rings: of a move', sum(circle[2] == '6' for circle in circles), rings)
        expect('rings: the move in words', [word for word in words if word.startswith('head 0')], ['head 0: radius from %d to %d, %s' % (radius, to, said)])
    # the words on the chosen heads, and in how many panels their ground is hatched
    shared = 'what heads 0, 1 share in the box'
    for words, chosen, said, hatched in (
            ('head 0 0 0\nhead 9 0 700\n', '0,1', shared + ': nothing, head 0 is closed', 0),
            ('head 0 0 0\nhead 9 0 -\n', '0,1', shared + ': nothing, heads 0, 1 are closed', 0),
            # moves that close a chosen head, and that open it
            ('head 0 0 500\nhead 300 0 400\nmove 0 - - 0\n', '0,1', shared + '; after the move nothing: head 0 is closed', 1),
            ('head 0 0 0\nhead 300 0 400\nmove 0 - - 500\n', '0,1', shared + '; before the move nothing: head 0 is closed', 1),
            ('head 0 0 500\nmove 0 - - 0\n', '0', 'what head 0 waters in the box; after the move nothing: head 0 is closed', 1),
            # the other chosen head is closed before and after: that one alone is named
            ('head 0 0 500\nhead 300 0 0\nmove 0 - - 0\n', '0,1', shared + ': nothing, head 1 is closed', 0),
            ('head 0 0 0\nhead 300 0 0\nmove 0 - - 500\n', '0,1', shared + ': nothing, head 1 is closed', 0),
            # a closed head stays closed where it is moved to; a move closes a head that is not chosen
            ('head 0 0 0\nhead 300 0 400\nmove 0 9 - -\n', '0,1', shared + ': nothing, head 0 is closed', 0),
            ('head 0 0 500\nhead 300 0 400\nhead 9 9 9\nmove 2 - - 0\n', '0,1', shared, 2)):
        _, found, _ = drawn_of(rows, words, '--set', chosen)
        expect('rings: of options', [word for word in found if word.startswith('what head')], [said])
        picture = run(['--svg', '--rows', rows, '--set', chosen, '-'], words.encode())[1]
        expect('rings: of options, ground hatched', picture.count(b'fill="url(#hatch)"'), hatched)
    _, found, _ = drawn_of(rows, 'head 0 0 0\nhead 9 0 700\n', '--zoom', '0')
    expect('rings: of options', found.count(key), 1)


def example_trial(rows):
    """The picture that README shows is the one that the tool draws."""
    with open(os.path.join(ROOT, 'example', 'closed.svg'), 'rb') as stored:
        expect('pictures: example/closed.svg', run(['--svg', '--rows', rows, os.path.join(ROOT, 'example', 'closed.txt')]), (0, stored.read(), ''))


def picture_trials(chance, folder, rows, count):
    """Pictures are XML and name every head; heads or moves that the plan has not are errors."""
    for _ in range(count):
        n = chance.choice([0, 1, 3, 10])
        reach = chance.choice([3, 300, 20000])
        place = lambda: chance.randint(-reach, reach)
        radius = lambda: chance.choice([0, 1, 1]) * chance.randint(1, reach)
        heads = ''.join('head %d %d %d\n' % (place(), place(), radius()) for _ in range(n))
        moves = ''.join('move %d %d - %s\n' % (chance.randrange(n), place(), chance.choice(['-', radius()])) for _ in range(chance.randint(0, 2) if n else 0))
        words = 'box - - %d %d\n' % (chance.choice([1, 500, 40000]), chance.choice([1, 500, 40000])) + heads + moves
        more = ['--set', str(n - 1)] if n else []
        status, out, error = run(['--svg', '--rows', rows] + more + ['-'], words.encode())
        expect('pictures', (status, error), (0, ''))
        drawn = xml.dom.minidom.parseString(out)
        labels = [node.firstChild.data for node in drawn.getElementsByTagName('text') if node.getAttribute('paint-order')]
        expect('pictures: a number for every head', sorted(set(','.join(labels).split(',')) - {''}), sorted(str(i) for i in range(n)))
        expect('pictures: no circle of radius 0', [node for node in drawn.getElementsByTagName('circle') if float(node.getAttribute('r')) == 0], [])
    ring_trials(rows)
    example_trial(rows)
    fails(['--svg', '--rows', rows, '--set', '0,3', '-'], SAMPLE.encode(), 1, '--set has head 3; the plan has heads 0 to 2')
    fails(['--svg', '--rows', rows, '--edit', '2', '-'], SAMPLE.encode(), 1, 'there is no move 2; the plan has one move')


def main():
    count, rows, chance = int(sys.argv[1]), sys.argv[2], random.Random(16)
    for data in trials.fixed_files():
        file_trial(data)
    for _ in range(count):
        file_trial(random_file(chance))
        text_trial(chance)
    with tempfile.TemporaryDirectory() as folder:
        command_trials(chance, folder, rows)
        refused_file_trials(rows)
        table_trial(rows)
        closed_trials(rows)
        picture_trials(chance, folder, rows, 8)
    for what, number in COUNTS.items():
        print('%7d %s' % (number, what))



main()
