"""files.py COUNT [SEED]: COUNT random and damaged plan files through the program rows, one process a file. What it must print is worked
out for each file in whole: the refusal with its place by tests/plan, from document 01's table; a taken file's rows as the sets of its last
plan, worked out in tools/plans/sets.py by document 01's rules, with the areas that the library gives of that plan afresh. Nothing may be said
on standard error, and no run may crash or hang. That each of these would be seen is shown first, with programs that do them."""
import os
import random
import resource
import subprocess
import sys
import tempfile
import time

import checks
import trials
from plans import library, sets

CHECKS = checks.Checks('files')
LIBRARY = library.load()

# ---- what rows must print


def last_plan(line):
    """The box and the heads of tests/plan's line `plan N ..`, whose numbers are 32 bits in hexadecimal."""
    count, *numbers = line.split()[1:]
    numbers = [int(word, 16) - (int(word, 16) >> 31 << 32) for word in numbers]
    heads = numbers[4:4 + 3 * int(count)]
    return numbers[:4], [heads[i:i + 3] for i in range(0, len(heads), 3)]


def table_of(box, heads):
    """The lines of a plan's table."""
    window = library.Window(LIBRARY, box, heads)
    areas, numbers = window.exclusives(), bytes(window.exclusive_numbers)
    masks = sorted([0] + list(sets.discovered(heads)), key=lambda mask: (bin(mask).count('1'), mask))
    if sorted(areas) != sorted(masks):
        raise AssertionError('the sets of %s: %s in Python, %s in the library' % (heads, sorted(masks), sorted(areas)))
    return ''.join('%03X %s\n' % (mask, numbers[8 * mask:8 * mask + 8][::-1].hex().upper()) for mask in masks)


def worked_out(data):
    """All that rows must print for a file."""
    lines = trials.file_lines(data)
    return table_of(*last_plan(lines[-2])) if lines[-1] == 'taken' else lines[-1] + '\n'


# ---- one run

def wrong_in(program, data, wanted, limit=checks.LIMIT):
    """None where the program prints what it must for a file, and otherwise what it did."""
    try:
        done = subprocess.run(program, input=data, capture_output=True, timeout=limit)
    except subprocess.TimeoutExpired:
        return 'hangs: %s' % data.hex()
    if done.returncode < 0:
        return 'ended by signal %d: %s' % (-done.returncode, data.hex())
    if (done.returncode, done.stdout.decode('latin-1'), done.stderr) != (0, wanted, b''):
        return '%s: wanted %r, got %r, %r, status %d' % (data.hex(), wanted[:60], done.stdout[:60], done.stderr[:60], done.returncode)
    return None


# ---- files

def close_file(chance):
    """A file within the limits, of heads near each other, so that many of them share ground; one in six is closed."""
    reach = chance.choice([3, 8, 60, 400, 3000])
    spot = lambda: chance.randint(-reach, reach)
    head = lambda: [spot(), spot(), chance.choice([0, 1, 1, 1, 1, 1]) * chance.randint(1, chance.choice([reach, 2 * reach]))]
    some = lambda values: [value if chance.random() < 0.7 else None for value in values]
    n = chance.randint(0, 10)
    edits = [(chance.randrange(n), some(head())) for _ in range(chance.choice([0, 0, 1, 2, 5, 30]))] if n else []
    box = [spot(), spot(), chance.randint(1, 3 * reach), chance.randint(1, 3 * reach)]
    return trials.plan_file(box, [head() if i == 0 else some(head()) for i in range(n)], edits)


def any_file(chance):
    return chance.choice([close_file, close_file, lambda chance: trials.random_file(chance, trials.within)])(chance)


def bits_flipped(chance):
    data = bytearray(any_file(chance))
    for _ in range(chance.choice([1, 1, 1, 2, 8])):
        data[chance.randrange(len(data))] ^= 1 << chance.randrange(8)
    return bytes(data)


def bytes_cut(chance):
    data = any_file(chance)
    first = chance.randrange(len(data))
    last = chance.choice([len(data), min(len(data), first + chance.randint(1, 8))])
    return data[:first] + data[last:]


def bytes_added(chance):
    data = any_file(chance)
    at = chance.choice([0, len(data), chance.randint(0, len(data))])
    more = chance.choice([bytes([chance.randrange(256)]), bytes(chance.randrange(256) for _ in range(chance.randint(1, 20))), b'\0' * 20, any_file(chance)])
    return data[:at] + more + data[at:]


def count_changed(chance):
    data = any_file(chance)
    return bytes([chance.choice([max(0, data[0] - 1), data[0] + 1, chance.randrange(11), chance.randrange(256)])]) + data[1:]


def edits_cut(chance):
    """A file whose list of edits ends anywhere, between two edits or within one."""
    box, heads = [5, 6, 700, 800], [[0, 0, 50], [30, None, None], [None, 40, 60]]
    edits = [(chance.randrange(3), trials.within(chance, trials.HEAD)) for _ in range(chance.randint(1, 8))]
    data = trials.plan_file(box, heads, edits)
    return data[:chance.randint(len(trials.plan_file(box, heads)), len(data))]


def huge_counts(chance):
    """More heads than are taken, all of them there or not; values of 32 bits; edits of heads far beyond; hundreds of edits."""
    kind = chance.randrange(4)
    if kind == 0:
        heads = [trials.within(chance, trials.HEAD) for _ in range(chance.choice([11, 12, 64, 255]))]
        return trials.plan_file(trials.within(chance, trials.BOX), heads)
    if kind == 1:
        far = lambda kinds: [chance.choice([None, None, None, 1, -2**31, 2**31 - 1, 1 << chance.randrange(31)]) for _ in kinds]
        return trials.plan_file(far(trials.BOX), [far(trials.HEAD) for _ in range(chance.randint(0, 3))])
    if kind == 2:
        return close_file(chance) + bytes([chance.choice([10, 11, 128, 255]), 0])
    edits = [(chance.randrange(2), [chance.randint(-90, 90), None, None]) for _ in range(chance.choice([100, 1000]))]
    return trials.plan_file([0, 0, 300, 200], [[0, 0, 50], [30, 0, 50]], edits)


def tiny(chance):
    return bytes(chance.choice([0, 1, 2, 7, 15, chance.randrange(256)]) for _ in range(chance.choice([0, 1, 1, 2, 2, 3, 4])))


def by_name(name):
    return lambda chance: trials.KINDS[name](chance)[0][3:]


KINDS = {
    'files of heads near each other': close_file,
    'files within the limits': by_name('files within the limits'),
    'files with values at and past the limits': by_name('files with values at and past the limits'),
    'files with bits flipped': bits_flipped,
    'files with bytes cut': bytes_cut,
    'files with bytes added, or a file in a file': bytes_added,
    'files with bytes changed, added and taken': by_name('files with bytes changed, added or taken'),
    'files with another count of heads': count_changed,
    'files whose edits end anywhere': edits_cut,
    'files with huge counts, values and lists': huge_counts,
    'files of 0 to 4 bytes': tiny,
    'files of random bytes': by_name('files of random bytes'),
}


# ---- faults that must be seen

FAULTS = {
    'a crash': 'kill -SEGV $$',
    'a hang': 'exec sleep 100',
    'nothing printed': 'true',
    'one digit': '"$rows" | sed "s/1/2/"',
    'a line too few': '"$rows" | sed 1d',
    'a line too many': '"$rows"; echo',
    'a word on standard error': '"$rows"; echo word >&2',
    'a status': '"$rows"; exit 1',
}


def faults_are_seen(program):
    data = trials.plan_file([0, 0, 3000, 2000], [[0, 0, 300], [10, 0, 300]])
    CHECKS.see('faults that must be seen', wrong_in([program], data, worked_out(data)))
    with tempfile.TemporaryDirectory() as folder:
        for name, words in FAULTS.items():
            path = os.path.join(folder, 'faulty')
            with open(path, 'w') as out:
                out.write('#!/bin/sh\nulimit -c 0\nrows=%s\n%s\n' % (program, words))
            os.chmod(path, 0o755)
            seen = wrong_in([path], data, worked_out(data), 0.5 if name == 'a hang' else checks.LIMIT)
            CHECKS.see('faults that must be seen', None if seen else '%s is not seen' % name)


def main():
    count, chance = int(sys.argv[1]), random.Random(int(sys.argv[2]) if len(sys.argv) > 2 else 20)
    program = checks.PROGRAM
    resource.setrlimit(resource.RLIMIT_CORE, (0, 0))
    faults_are_seen(program)
    answers, slowest, began = {}, 0.0, time.monotonic()
    for i in range(count):
        kind = list(KINDS)[i % len(KINDS)]
        data = b'' if i == list(KINDS).index('files of 0 to 4 bytes') else KINDS[kind](chance)
        wanted = worked_out(data)
        at = time.monotonic()
        CHECKS.see(kind, wrong_in([program], data, wanted))
        slowest = max(slowest, time.monotonic() - at)
        answer = ' '.join(wanted.split()[:2]) if wanted.startswith('refused') else 'taken'
        answers[answer] = answers.get(answer, 0) + 1
    print('%7d files in %.0f s, the slowest run %.3f s: %s' % (
        count, time.monotonic() - began, slowest, ', '.join('%d %s' % (answers[answer], answer) for answer in sorted(answers, reverse=True))))
    for answer in ['taken'] + ['refused %d' % number for number in trials.OF_FILES]:
        CHECKS.see('answers of which there are some', None if answers.get(answer, 0) * 200 >= count else 'too few are %s' % answer)
    CHECKS.end()


main()
