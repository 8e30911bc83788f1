"""rows.py ORACLE: runs the program target/bin/rows over plan files and compares what it prints: document 01's example and its
"also run" cases, the files of tests/plan (answers worked out there from document 01), input that comes in small pieces, input of any
length, ends that cannot be read or written; and, where ORACLE names the program of oracle.rs, 4,000 taken files line by line with the
Rust's compute_exclusive_regions_clipped of the last plan. Half of these have closed heads: the Rust is given the plan without them, and its masks
are spread back to the numbers that the heads have in the file."""
import os
import random
import re
import resource
import struct
import subprocess
import sys
import time

ROOT = os.path.dirname(os.path.dirname(os.path.dirname(os.path.abspath(__file__))))
sys.path.insert(0, os.path.join(ROOT, 'tests', 'plan'))
import trials  # noqa: E402

ROWS = [os.path.join(ROOT, 'target', 'bin', 'rows')]
EXAMPLE = bytes.fromhex('010C140000000A00000003E8030000E8030000')
EXAMPLE_PRINTS = '000 4069000000000000\n001 0000000000000000\n'
TABLE = re.compile(r'(?:[0-9A-F]{3} [0-9A-F]{16}\n)+\Z')

passed = 0


def see(name, count, wrong):
    global passed
    if wrong:
        print('%s: %s' % (name, wrong))
        sys.exit(1)
    passed += 1
    print('%7d %s' % (count, name))


def rows(data, **ends):
    done = subprocess.run(ROWS, input=data, capture_output=True, **ends)
    return done.stdout.decode(), done.stderr.decode()


def as_trials_says(data):
    """None where the program takes or refuses the file as tests/plan works it out, and otherwise what differs."""
    answer = trials.file_lines(data)[-1]
    printed, said = rows(data)
    right = TABLE.match(printed) if answer == 'taken' else printed == answer + '\n'
    return None if right and said == '' else '%s: %s, printed %r %r' % (data.hex(), answer, printed, said)


def first_wrong(files):
    for data in files:
        wrong = as_trials_says(data)
        if wrong:
            return wrong
    return None


# ---- document 01's cases

see("document 01's example", 1, None if rows(EXAMPLE) == (EXAMPLE_PRINTS, '') else rows(EXAMPLE))

head = lambda radius: trials.plan_file([None] * 4, [[None, None, radius]])
heads = lambda n: trials.plan_file([None] * 4, [[None] * 3] * n)
side = lambda v: trials.plan_file([None, None, v, None], [])
# a closed head alone leaves the box, 40,000 by 40,000, to row 0
CLOSED_PRINTS = '000 %s\n' % struct.pack('>d', 40000.0 * 40000.0).hex().upper()
ALSO = [(head(20000), None), (head(20001), 'refused 11 at 3\n'), (head(0), CLOSED_PRINTS), (head(-1), 'refused 11 at 3\n'), (heads(10), None),
        (heads(11), 'refused 2 at 0\n'), (side(40000), None), (side(40001), 'refused 5 at 2\n'), (side(0), 'refused 5 at 2\n')]
wrong = [(data.hex(), rows(data)) for data, printed in ALSO if not (TABLE.match(rows(data)[0]) if printed is None else rows(data)[0] == printed)]
see('"also run" cases', len(ALSO), wrong)

# ---- the files of tests/plan

fixed = list(trials.fixed_files())
see("fixed files of tests/plan", len(fixed), first_wrong(fixed))
chance = random.Random(20000)
kinds = [kind for name, kind in trials.KINDS.items() if name.startswith('files')]
drawn = [kinds[i % len(kinds)](chance)[0][3:] for i in range(1500)]
see("random and damaged files of tests/plan", len(drawn), first_wrong(drawn))

# ---- pieces and lengths

sample = trials.plan_file([0, 0, 400, 300], [[-20, 5, 90], [60, -10, 70], [10, 40, 55]], [(1, [None, None, 80]), (0, [15, None, None])])


def in_pieces(data, size):
    run = subprocess.Popen(ROWS, stdin=subprocess.PIPE, stdout=subprocess.PIPE, bufsize=0)
    for at in range(0, len(data), size):
        run.stdin.write(data[at:at + size])
        time.sleep(0.002)
    run.stdin.close()
    return run.stdout.read().decode()


whole = rows(sample)[0]
sizes = [1, 2, 3, 5, 7, 16]
see("a slow pipe, in pieces of 1 to 16 bytes", len(sizes), None if TABLE.match(whole) and all(in_pieces(sample, size) == whole for size in sizes) else 'differs')

# 200,000 edits, 1.2 million bytes, in 64 MB: head 0 goes round, and ends where one edit would have put it
edits = b''.join(b'\0' + trials.record([i % 2000 - 1000, None, None]) for i in range(200000))
start = trials.plan_file([0, 0, 3000, 2000], [[0, 0, 300]])
limit = lambda: resource.setrlimit(resource.RLIMIT_AS, (1 << 26, 1 << 26))
see("edits in one input, in constant memory", 200000, None if rows(start + edits, preexec_fn=limit)[0] == rows(start + edits[-6:])[0] else 'differs')

# ---- ends that fail

UNREAD, UNWRITTEN = 'rows: standard input could not be read\n', 'rows: standard output could not be written\n'
folder = os.open('/', os.O_RDONLY)
done = subprocess.run(ROWS, stdin=folder, capture_output=True)
os.close(folder)
see("input that cannot be read prints no row", 1, None if (done.stdout.decode(), done.stderr.decode()) == ('', UNREAD) else done)
done = subprocess.run(ROWS, preexec_fn=lambda: os.close(0), capture_output=True)
see("closed input prints no row", 1, None if (done.stdout.decode(), done.stderr.decode()) == ('', UNREAD) else done)
done = subprocess.run(ROWS, input=EXAMPLE, preexec_fn=lambda: os.close(1), stderr=subprocess.PIPE)
see("closed output is said", 1, None if done.stderr.decode() == UNWRITTEN else done)
if os.path.exists('/dev/full'):
    with open('/dev/full', 'wb') as full:
        done = subprocess.run(ROWS, input=EXAMPLE, stdout=full, stderr=subprocess.PIPE)
    see("a full device is said", 1, None if done.stderr.decode() == UNWRITTEN else done)

# ---- the Rust


def taken_file(chance, closed):
    """A taken file whose last plan has no two identical heads but closed ones, that plan's box, and its heads. The part `closed` of its radii is 0."""
    reach = chance.choice([8, 60, 400, 3000, 20000])
    spot = lambda: chance.randint(-reach, reach)
    some = lambda: chance.randint(1, min(20000, chance.choice([reach, reach, 2 * reach, max(1, reach // 5)])))
    radius = lambda: 0 if closed and chance.random() < closed else some()
    while True:
        n = chance.choice([0, 1, 2, 3, 4, 5, 6, 7, 8, 9, 10, 10])
        box = [spot(), spot(), chance.randint(1, min(40000, 3 * reach)), chance.randint(1, min(40000, 3 * reach))]
        plan = [[spot(), spot(), radius()] for _ in range(n)]
        if n > 1 and chance.random() < 0.2:
            plan[1] = plan[0][:2] + [radius()]
        edits = []
        for _ in range(chance.randint(0, 4) if n else 0):
            fields = [v if chance.random() < 0.6 else None for v in (spot(), spot(), radius())]
            edits.append((chance.randrange(n), fields))
        data = trials.plan_file(box, plan, edits)
        for k, fields in edits:
            plan[k] = [old if new is None else new for old, new in zip(plan[k], fields)]
        if len(set(map(tuple, left_in(plan)))) == len(left_in(plan)):
            return data, box, plan


def left_in(plan):
    """The heads that are not closed: the plan that the Rust is asked about, which takes no radius 0."""
    return [head for head in plan if head[2] != 0]


def spread(answer, plan):
    """The Rust's lines with its masks, which know the heads left in alone, spread back: its bit i goes to the place of the i-th of these heads."""
    places = [k for k, head in enumerate(plan) if head[2] != 0]
    mask = lambda small: sum(1 << k for i, k in enumerate(places) if small >> i & 1)
    return ''.join('%03X%s\n' % (mask(int(line[:3], 16)), line[3:]) for line in answer.split('\n'))


# closed heads on a meeting point of two others, on an edge, in the middle of a head, on one another
STANDING = [[[0, 0, 5], [8, 0, 5], [4, 3, 0]], [[4, -3, 0], [0, 0, 5], [4, 3, 0], [8, 0, 5]], [[0, 0, 5], [5, 0, 0]], [[3, 4, 0], [0, 0, 5], [0, 5, 4]],
            [[1, 1, 0], [1, 1, 5]], [[1, 1, 5], [1, 1, 0], [1, 1, 0], [6, 1, 0], [11, 1, 5]]]


def as_the_rust(made):
    """How many lines the program prints for these taken files, each as the Rust has it; how many of them have 0, 1 .. 10 heads closed; what is wrong."""
    lines = ''.join(' '.join(map(str, box + sum(left_in(plan), []))) + '\n' for _, box, plan in made)
    answers = subprocess.run([sys.argv[1]], input=lines.encode(), capture_output=True, check=True).stdout.decode().split('\n\n')
    answers = [answer.strip('\n') for answer in answers[:-1]]
    printed, shut = 0, [0] * 11
    for (data, box, plan), answer in zip(made, answers):
        ours, theirs = rows(data)[0], spread(answer, plan)
        if ours != theirs:
            see('the Rust', 1, '%s\n%s %s\nours:\n%sthe Rust:\n%s' % (data.hex(), box, plan, ours, theirs))
        printed += ours.count('\n')
        shut[len(plan) - len(left_in(plan))] += 1
    return printed, shut, None if len(answers) == len(made) else 'not all answered'


if len(sys.argv) > 1:
    chance = random.Random(1)
    printed, _, wrong = as_the_rust([taken_file(chance, 0) for _ in range(2000)])
    see("taken files, %d lines, as the Rust's last plan" % printed, 2000, wrong)
    made = [(trials.plan_file([0, 0, 20, 14], plan), [0, 0, 20, 14], plan) for plan in STANDING]
    made += [taken_file(chance, chance.choice([0.2, 0.5, 0.9])) for _ in range(2000)]
    printed, shut, wrong = as_the_rust(made)
    wrong = wrong or (None if all(shut) else 'no plan has %d closed heads' % shut.index(0))
    see("taken files with 0 to 10 heads of the last plan closed (%d with none), %d lines, as the Rust's plan without them" % (shut[0], printed), len(made), wrong)

print('%d passed, 0 failed' % passed)
