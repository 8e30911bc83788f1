"""many.py: a folder of plans through example/many and through the line that its head gives, with find and xargs -P: one table a plan, as
rows prints it; plans that fail are named with what rows said, leave no table, and stop no other."""
import os
import random
import resource
import shlex
import subprocess
import tempfile

import checks
import trials

CHECKS = checks.Checks('many')
PROGRAM = checks.PROGRAM
MANY = os.path.join(checks.ROOT, 'example', 'many')
NAMES = ['a.plan', 'with space.plan', 'two\nlines.plan', "it's.plan", '"quoted".plan', '-n.plan', '$(exit 1).plan', '*.plan', 'é.plan', '.plan',
         'in/b.plan', 'in/deep er/-P.plan', 'in.rows/c.plan', 'x.plan.plan', '\\.plan', '#.plan']


def files(folder):
    """The files in a folder and its subfolders: {name: bytes}."""
    found = {}
    for place, _, names in os.walk(folder):
        for name in names:
            path = os.path.join(place, name)
            with open(path, 'rb') as source:
                found[os.path.relpath(path, folder)] = source.read()
    return found


def write(folder, name, data):
    path = os.path.join(folder, name)
    os.makedirs(os.path.dirname(path), exist_ok=True)
    with open(path, 'wb') as out:
        out.write(data)


def run(words, **more):
    done = subprocess.run(words, capture_output=True, timeout=10 * checks.LIMIT, **more)
    return done.returncode, done.stdout.decode(), done.stderr.decode()


def printed(data):
    return subprocess.run([PROGRAM], input=data, capture_output=True).stdout


def table_name(name):
    return name[:-len('.plan')] + '.rows'


def a_folder(folder, count):
    """Plans of which some are refused, other files beside them, and a folder that is named as a plan."""
    chance, plans = random.Random(6), {}
    for i in range(count):
        name = NAMES[i] if i < len(NAMES) else 'more/%d.plan' % i
        data = trials.random_file(chance, trials.within)
        plans[name] = data[:chance.randrange(len(data))] if i % 5 == 3 else data
        write(folder, name, plans[name])
    write(folder, 'readme.txt', b'no plan')
    os.makedirs(os.path.join(folder, 'folder.plan'))
    return plans


def with_failures(plans, source, tables, at_once):
    """The whole folder: tables of the taken plans, and a line for each of the refused, whatever an earlier run left."""
    answers = {name: printed(data) for name, data in plans.items()}
    failed = {name for name, answer in answers.items() if answer.startswith(b'refused ')}
    CHECKS.see('plans of both kinds are there', None if 2 < len(failed) < len(plans) - 2 else failed)
    for name in failed:
        write(tables, table_name(name), b'a table of an earlier run')
    status, out, said = run([MANY, source, tables, str(at_once)])
    CHECKS.same('many: the status where plans failed', (status, out), (1, ''))
    CHECKS.same('many: a table for each plan taken, and no other file', files(tables), {table_name(n): a for n, a in answers.items() if n not in failed})
    wanted = ''.join('%s: %s' % (name, answers[name].decode()) for name in failed)
    CHECKS.same('many: each failed plan is named with what rows said', sorted(said.splitlines()), sorted(wanted.splitlines()))
    return failed


def without_failures(plans, failed, source, tables):
    for name in failed:
        os.unlink(os.path.join(source, name))
    taken = {table_name(name): printed(data) for name, data in plans.items() if name not in failed}
    for at_once in ([], ['1']):
        CHECKS.same('many: the status where all plans were taken', run([MANY, source, tables] + at_once), (0, '', ''))
        CHECKS.same('many: a table for each plan taken, and no other file', files(tables), taken)


def no_room(source, folder):
    """Where no file can be written every plan fails, and nothing is left."""
    tables = os.path.join(folder, 'no room')
    nothing = lambda: resource.setrlimit(resource.RLIMIT_FSIZE, (0, 0))
    status, _, said = run([MANY, source, tables], preexec_fn=nothing)
    CHECKS.same('many: no room for a table', (status, files(tables), len(said) > 0), (1, {}, True))


def wrong_words(source, folder):
    missing, empty, in_the_way = [os.path.join(folder, name) for name in ('missing', 'empty', 'file')]
    os.makedirs(empty)
    write(folder, 'file', b'')
    new = os.path.join(folder, 'new')
    for words in ([], [source], [source, new, '2', '3'], [missing, new], [empty, new], [source, in_the_way], [source, new, '0'], [source, new, 'x']):
        status, out, said = run([MANY] + words)
        CHECKS.same('many: wrong words', (status, out, 'many: ' in said, os.path.exists(new)), (2, '', True, False))


def one_line(plans, source):
    """The line in the head of example/many, as it stands there but for the folder."""
    with open(MANY) as script:
        line = next(line[1:].strip() for line in script if line.startswith('#   find PLANS '))
    for name, data in plans.items():
        write(source, name, data)
    status, out, said = run(['sh', '-c', line.replace('PLANS', shlex.quote(source), 1)], cwd=checks.ROOT)
    wanted = dict(plans, **{name + '.rows': printed(data) for name, data in plans.items()})
    CHECKS.same('the line: a file for each plan with what rows printed', files(source), wanted)
    failed = [name for name in plans if wanted[name + '.rows'].startswith(b'refused ')]
    seen = [name for name in failed if 'in %s/%s\n' % (source, name) in said and wanted[name + '.rows'].decode() in said]
    CHECKS.same('the line: each failed plan is named, and the status', (status, out, seen), (123, '', failed))


def main():
    with tempfile.TemporaryDirectory() as folder:
        source, tables = os.path.join(folder, 'the plans'), os.path.join(folder, 'the tables')
        plans = a_folder(source, 40)
        failed = with_failures(plans, source, tables, 4)
        without_failures(plans, failed, source, os.path.join(folder, 'again'))
        no_room(source, folder)
        wrong_words(source, folder)
        one_line(plans, os.path.join(folder, 'beside'))
    CHECKS.end()


main()
