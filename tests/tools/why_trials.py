"""Trials of tools/plan --why, tools/stale and the Python side of the library.

    why_trials.py COUNT [ROWS]      COUNT random plans of several kinds, an edit each; with the program ROWS also its answers to some

The edit's own rule (demand 3) is worked out here from document 01 as it stands now (docs/SCOPE.md), and held against the library, which is handed
false numbers to see which rows it keeps; every row that changed must be listed, and every reason must be true of the plans and tables.
"""
import os
import random
import re
import struct
import subprocess
import sys
import tempfile

ROOT = os.path.dirname(os.path.dirname(os.path.dirname(os.path.abspath(__file__))))
sys.path[:0] = [os.path.join(ROOT, 'tools')]
from plans import library, sets, table, why, window  # noqa: E402
from plans.file import Plan, Record  # noqa: E402

COUNTS = {}


def expect(what, got, wanted, shown=''):
    COUNTS[what] = COUNTS.get(what, 0) + 1
    if got != wanted:
        sys.exit('%s:\n  worked out: %r\n  got:        %r\n  %s' % (what, wanted, got, shown))


def bits(number):
    return None if number is None else struct.pack('>d', number)


# ---- random plans

def dense(chance):
    return [chance.randint(-900, 900), chance.randint(-900, 900), chance.randint(300, 1500)]


def nested(chance):
    return [chance.randint(-60, 60), chance.randint(-60, 60), chance.choice([50, 55, 60, 400, 420, 1000, 2000])]


def sparse(chance):
    return [chance.randint(-9000, 9000), chance.randint(-9000, 9000), chance.randint(1, 4000)]


def small(chance):
    return [chance.randint(-6, 6), chance.randint(-6, 6), chance.randint(1, 7)]


KINDS = [dense, nested, sparse, small]


def random_edit(chance):
    """A plan and an edit. In half of the plans heads are closed, and one edit in four closes its head or leaves it closed."""
    kind = chance.choice(KINDS)
    heads = [kind(chance) for _ in range(chance.choice([1, 2, 3, 4, 5, 5, 6, 7, 8]))]
    closed = chance.choice([0, 0, 0.2, 0.5])
    heads = [[x, y, 0 if chance.random() < closed else radius] for x, y, radius in heads]
    k = chance.randrange(len(heads))
    new = kind(chance) if chance.random() < 0.7 else [heads[k][0] + 9000, heads[k][1], heads[k][2]]
    if chance.random() < 0.25:
        new = (heads[k] if chance.random() < 0.7 else new)[:2] + [0]
    box = [chance.randint(-100, 100), chance.randint(-100, 100), chance.choice([10, 300, 3000, 20000]), chance.choice([10, 300, 3000, 20000])]
    return box, heads, k, new


# Edits that close or open a head where a closed one might be taken for more than it is: (heads, the edited one, its new values).
PLACES = [
    ([[0, 0, 5], [8, 0, 5], [4, 3, 5]], 2, [4, 3, 0]),      # on the meeting point (4, 3) of two others
    ([[0, 0, 5], [8, 0, 5], [4, 3, 0]], 2, [4, 3, 1]),
    ([[0, 0, 5], [8, 0, 5], [4, 3, 0]], 2, [4, -3, 0]),     # from one to the other
    ([[0, 0, 5], [8, 0, 0], [4, 3, 0]], 1, [8, 0, 5]),      # the two get the point where it stands
    ([[0, 0, 5], [5, 0, 3]], 1, [5, 0, 0]),                 # on the edge of another: D = s² = t²
    ([[3, 4, 0], [9, 9, 2]], 1, [0, 0, 5]),                 # another comes that has it on its edge
    ([[0, 0, 5], [0, 0, 5]], 0, [0, 0, 0]),                 # in the middle of another, and identical to it before
    ([[2, 2, 0], [2, 2, 7]], 1, [2, 2, 0]),                 # on another closed one
    ([[2, 2, 0], [2, 2, 0], [2, 2, 0]], 1, [2, 2, 7]),
    ([[0, 0, 0], [1, 1, 0], [4, 4, 0]], 0, [9, 9, 0]),      # all of them closed
]


# ---- demand 3's rule, from document 01

def meets(a, b):
    distance = (a[0] - b[0]) ** 2 + (a[1] - b[1]) ** 2
    return 0 not in (a[2], b[2]) and a != b and (a[2] - b[2]) ** 2 <= distance <= (a[2] + b[2]) ** 2


def worked_out(mask, k, old, new, heads, before):
    """Whether the row of a set that is present after the edit is worked out."""
    members = [i for i in range(len(heads)) if mask >> i & 1]
    if not members:
        return False
    met = any(i != k and (meets(heads[i], old) or meets(heads[i], new)) for i in members)
    return k in members or mask not in before or (len(members) > 1 and met)


def kept_trial(proved, box, heads, k, new):
    """Which rows the library keeps, seen by the false numbers handed in, and which the rule keeps."""
    lent = library.Window(proved, box, heads)
    before = lent.rows()
    false = {mask: -12345.5 - mask for mask in before}
    for mask, number in false.items():
        lent.numbers[mask] = number
    lent.edit(k, *new)
    after = lent.rows()
    kept = {mask for mask, number in after.items() if mask in false and number == false[mask]}
    expect('edits: the rows kept', kept, {mask for mask in after if not worked_out(mask, k, heads[k], new, heads, before)})


# ---- reasons

def names(words):
    return sum(1 << int(word) for word in re.findall('[0-9]+', words))


def rounded(a, b):
    return round(((a[0] - b[0]) ** 2 + (a[1] - b[1]) ** 2) ** 0.5)


def contains(a, b):
    return 0 not in (a[2], b[2]) and a[2] >= b[2] and (a[0] - b[0]) ** 2 + (a[1] - b[1]) ** 2 <= (a[2] - b[2]) ** 2


def reach(heads, point, slack):
    return sum(1 << i for i, (x, y, r) in enumerate(heads) if r and ((x - point[0]) ** 2 + (y - point[1]) ** 2) ** 0.5 <= r + slack)


def is_at_point(heads, i, j, mask):
    """Heads i and j meet at a point that only the heads of the mask reach, but for a rounding."""
    close = lambda point: reach(heads, point, -1e-6) & ~mask == 0 and mask & ~reach(heads, point, 1e-6) == 0
    return meets(heads[i], heads[j]) and any(close(point) for point in sets.meeting_points(heads[i], heads[j]))


def set_true(words, move, mask, heads):
    """Whether the clause on how a set is found holds of the heads."""
    found = re.match('heads ([0-9]+) and ([0-9]+) (?:meet|met) at a point that only heads ([0-9, ]+) reach', words)
    if found:
        i, j, wide = int(found.group(1)), int(found.group(2)), names(found.group(3))
        less = re.search('without head ([0-9]+) that leaves this row$', words)
        same_set = wide == mask if not less else wide == mask | 1 << int(less.group(1)) != mask
        told = re.search('(before|now),? the moved head (reached|did not reach|reaches|does not reach) it', words)
        other = move.before.heads if told and told.group(1) == 'before' else move.after.heads
        flip = not told or is_at_point(other, i, j, wide ^ 1 << move.k) and ('not' in told.group(2)) == bool(wide >> move.k & 1)
        return same_set and is_at_point(heads, i, j, wide) and flip and bool(told) == (move.k not in (i, j))
    found = re.fullmatch('heads ([0-9]+) and ([0-9]+) (?:now meet|met), at ([0-9]+) cm', words)
    if found:
        i, j, distance = map(int, found.groups())
        return mask == 1 << i | 1 << j and meets(heads[i], heads[j]) and distance == rounded(heads[i], heads[j])
    found = re.fullmatch('head ([0-9]+) (?:now contains|contained) head ([0-9]+)', words)
    if found:
        i, j = map(int, found.groups())
        return mask == 1 << i | 1 << j and contains(heads[i], heads[j])
    found = re.fullmatch('head ([0-9]+) (?:lies|lay) within all its other heads', words)
    return bool(found) and all(contains(heads[i], heads[int(found.group(1))]) for i in sets.ones(mask) if i != int(found.group(1)))


def met_true(words, move, mask):
    """Whether the clause on a head that was met holds."""
    found = re.match('it has head ([0-9]+), which the moved head (met before|meets now)', words)
    j = int(found.group(1))
    distances = [rounded(move.before.heads[move.k], move.before.heads[j])] if 'met before' in words else []
    distances += [rounded(move.after.heads[move.k], move.after.heads[j])] if 'meets now' in words else []
    at = [meets(move.before.heads[move.k], move.before.heads[j]), meets(move.after.heads[move.k], move.after.heads[j])]
    said = ['met before' in words, 'meets now' in words]
    return mask >> j & 1 and at == said and distances == [int(word) for word in re.findall('([0-9]+) cm', words)] and not mask >> move.k & 1


def within_true(words, move, mask):
    """Whether the clause on a row within this one holds."""
    found = re.fullmatch('its own area stayed, but row ([0-9A-F]{3}), which lies within it, (became present|is no more present|changed)'
                         r'(?: \(and [0-9]+ more\))?', words)
    other = int(found.group(1), 16)
    before, after = move.before.rows.get(other), move.after.rows.get(other)
    what = 'became present' if before is None else 'is no more present' if after is None else 'changed'
    return other & mask == mask != other and bits(before) != bits(after) and what == found.group(2)


def turned(move):
    """What the move did to its head: `was closed`, `was opened`, or nothing of the kind."""
    return {(1, 0): 'was closed', (0, 1): 'was opened'}.get(tuple(int(moment.heads[move.k][2] > 0) for moment in (move.before, move.after)), '')


def presence_true(words, move, mask, gone):
    """Whether it is said that the moved head was closed or opened exactly if it was, and the rest holds: there is none for the rows that a closed head
    had and for the row of an opened head alone, which need no other reason."""
    if turned(move):
        first, _, words = words.partition('; ')
        if first != 'head %d %s' % (move.k, turned(move)):
            return False
        if mask >> move.k & 1 and (turned(move) == 'was closed' or mask == 1 << move.k):
            return words == '' and gone == (turned(move) == 'was closed')
    return set_true(words, move, mask, move.before.heads if gone else move.after.heads)


def reason_true(words, move, mask):
    before, after = move.before.rows.get(mask), move.after.rows.get(mask)
    if words.startswith('newly present: '):
        return before is None and after is not None and presence_true(words[15:], move, mask, False)
    if words.startswith('no more present: '):
        return before is not None and after is None and presence_true(words[17:], move, mask, True)
    if words.startswith('its own area stayed'):
        return bits(before) == bits(after) and within_true(words, move, mask)
    words, small, _ = words.partition('; only its last bits changed')
    if bits(before) == bits(after) or bool(small) != (abs(before - after) < 1 and table.square_metres(before) == table.square_metres(after)):
        return False
    return bool(mask >> move.k & 1) if words == 'it has the moved head' else bool(met_true(words, move, mask))


def kind_of(words):
    """What sort of reason it is, to be counted: of rows that came or went also what comes of a head that was closed or opened."""
    switch = re.match('(newly|no more) present: head [0-9]+ (was closed|was opened)(; .*|$)', words)
    if switch:
        return '%s present: %s%s' % (switch.group(1), switch.group(2), ', and how the row is found' if switch.group(3) else '')
    return re.sub('(head|heads) [0-9, and]+|row [0-9A-F]+|[0-9]+ cm', '..', words).split(':')[0].split(', which')[0][:40]


def why_trial(proved, box, heads, k, new):
    lent = library.Window(proved, box, heads)
    move, = why.moves_of(lent, [(k, new)])
    expect('sets before', set(move.sets_before) | {0}, set(move.before.rows), heads)
    expect('sets after', set(move.sets_after) | {0}, set(move.after.rows), move.after.heads)
    expect('exclusives in Python', {mask: bits(v) for mask, v in window.exclusives(move.after.rows).items()},
           {mask: bits(v) for mask, v in move.after.exclusives.items()})
    text = why.told(1, move)
    state = turned(move) or ('stays closed' if new[2] == 0 else '')
    expect('closed and opened: the first line', text.split('\n')[0].split(', radius ')[2], '%d%s' % (new[2], state and ': ' + state), text)
    COUNTS['  ' + (state or 'neither')] = COUNTS.get('  ' + (state or 'neither'), 0) + 1
    listed = {int(line[:3], 16): line for line in text.split('\n') if re.match('[0-9A-F]{3} ', line)}
    different = lambda mask: any(bits(a.get(mask)) != bits(b.get(mask)) for a, b in
                                 ((move.before.rows, move.after.rows), (move.before.exclusives, move.after.exclusives)))
    expect('rows listed', set(listed), {mask for mask in range(2 ** len(heads)) if different(mask)})
    kept = sum(1 for mask in move.after.rows if not worked_out(mask, k, heads[k], new, heads, move.before.rows))
    expect('number of rows kept', re.search(r'^(\w+) rows? kept', text, re.M).group(1), {0: 'no', 1: 'one'}.get(kept, str(kept)))
    for mask, line in listed.items():
        words = why.reason(move, mask)
        expect('reasons', (line.endswith(words), reason_true(words, move, mask)), (True, True), (words, '%03X' % mask, heads, k, new))
        COUNTS['  ' + kind_of(words)] = COUNTS.get('  ' + kind_of(words), 0) + 1


def program_trial(proved, rows, box, heads, k, new):
    """The program prints the exclusives that the library has after the same edit."""
    lent = library.Window(proved, box, heads)
    lent.edit(k, *new)
    plan = Plan(Record('box', box), [Record('head', head) for head in heads], [Record('move', new, k)])
    expect('the program and the library agree', {mask: bits(area) for mask, area in table.rows_of(plan, rows)},
           {mask: bits(area) for mask, area in lent.exclusives().items()})


# ---- the command line

def run(*words, data=b''):
    done = subprocess.run([sys.executable, '-B', os.path.join(ROOT, 'tools', words[0])] + list(words[1:]), input=data, capture_output=True)
    return done.returncode, done.stdout.decode(), done.stderr.decode()


CLOSING = """head 0 0 50
head 30 0 50
head 0 30 50
head 0 0 1000
head 0 0 2000
move 4 - - 0
move 4 7 - -
move 4 0 - 2000
"""


def closing_trial():
    """Two wide heads cover what three small ones share, so that these have no row of their own; one of the wide ones is closed, moved closed, and
    opened again. While it is closed the three have their row, and all rows that it had are gone."""
    status, out, error = run('plan', '--why', '-', data=CLOSING.encode())
    expect('closing and opening: status', (status, error), (0, ''), out)
    off, still, on = out.split('\n\n')
    expect('closing and opening: the head', [part.split('\n')[0].split(': ', 2)[2:] for part in (off, still, on)],
           [['was closed'], ['stays closed'], ['was opened']])
    listed = lambda what, text: {int(mask, 16): words for mask, words in re.findall('^(\\w{3}) .*  %s present: (.*)$' % what, text, re.M)}
    gone, came = listed('no more', off), listed('newly', on)
    expect('closing and opening: the rows that went', gone, {mask: 'head 4 was closed' for mask in gone if mask & 16} or 'none')
    expect('closing and opening: the same came back', (set(came), {words.split('; ')[0] for words in came.values()}), (set(gone), {'head 4 was opened'}))
    expect('closing and opening: nothing between', still.split('\n')[-1], 'No row changed.')
    point = 'heads 0 and 1 %s at a point that only heads 0, 1, 2, 3 %s; %s; without head 3 that leaves this row'
    expect('closing and opening: the row of the three', (listed('newly', off), listed('no more', on)), (
        {7: 'head 4 was closed; ' + point % ('meet', 'reach', 'before, the moved head reached it too')},
        {7: 'head 4 was opened; ' + point % ('met', 'reached', 'now the moved head reaches it too')}))
    with tempfile.NamedTemporaryFile('w', suffix='.txt') as ground:
        ground.write(CLOSING)
        ground.flush()
        status, out, error = run('stale', ground.name)
    expect('closing and opening: stale', (status, error, out.count('; it was closed'), out.count('; it was opened')), (0, '', 1, 1), out)
    expect('closing and opening: what the window lacks', 'yet it is newly present: head 4 was closed; heads 0 and 1' in out, True, out)


def command_trials():
    closing_trial()
    corner = os.path.join(ROOT, 'example', 'corner.txt')
    status, out, error = run('plan', '--why', corner)
    expect('commands', (status, error, out.count('newly present'), out.count('move ')), (0, '', 1, 3))
    status, out, error = run('stale', corner)
    expect('commands', (status, error, '<- stale: the window lacks the row' in out, 'DIFFERS' in out), (0, '', True, False))
    expect('commands', run('plan', '--why', '-', data=b'head 0 0 5\n'), (0, 'The plan has no moves.\n', ''))
    for words, data in (('head 0 0 20001', ':1: refused 11 at 11'), ('move 0 0 0 1', ':1: refused 6 at 2'),
                        ('head 0 0 -1', ':1: refused 11 at 11: the radius of head 0 is -1, outside 0 to 20000'),
                        ('box 0 0 0 9\nhead 0 0 -1', ':1: refused 5 at 10: the width of the box is 0, outside 1 to 40000'),
                        ('head 0 0 9\nmove 0 - - -1', ':2: refused 11 at 17: the radius that this move gives head 0 is -1, outside 0 to 20000')):
        status, out, error = run('plan', '--why', '-', data=words.encode())
        expect('commands', (status, out, data in error), (1, '', True))
    status, out, error = run('plan', '--why', '--library', '/dev/null', corner)
    expect('commands', (status, out, 'cannot use' in error), (1, '', True))
    expect('commands', [run('stale')[i] for i in (0, 1)], [2, ''])


def main():
    chance, proved = random.Random(20), library.load()
    fixed = [([0, 0, 40, 30], *edit) for edit in PLACES]
    for number in range(len(fixed) + int(sys.argv[1])):
        edit = fixed[number] if number < len(fixed) else random_edit(chance)
        kept_trial(proved, *edit)
        why_trial(proved, *edit)
        if sys.argv[2:] and (number < len(fixed) or number % 20 == 0):
            program_trial(proved, sys.argv[2], *edit)
    command_trials()
    for what, number in COUNTS.items():
        print('%7d %s' % (number, what))


main()
