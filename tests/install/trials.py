"""trials.py FOLDER: installs under FOLDER and uses what is there; tests/install/run."""
import hashlib
import os
import pathlib
import re
import shutil
import struct
import subprocess
import sys

import calls
import expected
import ground

ROOT = pathlib.Path(__file__).resolve().parents[2]
sys.path.insert(0, str(ROOT / 'tools'))
from plans import file, text  # noqa: E402

FOLDER = pathlib.Path(sys.argv[1]).resolve()
PREFIX = FOLDER / 'prefix'
INSTALL = ROOT / 'tools' / 'install'
WARN = ['-std=c99', '-O1', '-Wall', '-Wextra', '-Wpedantic', '-Werror']
WANT = (ROOT / 'examples' / 'window.txt').read_text()
ENVIRONMENT = {name: value for name, value in os.environ.items() if name not in ('DESTDIR', 'LD_LIBRARY_PATH', 'PKG_CONFIG_PATH')}

passed = 0


def see(name, wrong=None):
    """A trial: `wrong` says what is wrong, and is empty where nothing is."""
    global passed
    if wrong:
        sys.exit('FAILED: %s: %s' % (name, wrong))
    passed += 1
    print('ok  ' + name)


def run(*command, **options):
    """Status, output and errors of a command; `environment` is added to a plain one."""
    environment = {**ENVIRONMENT, **options.pop('environment', {})}
    done = subprocess.run([str(word) for word in command], capture_output=True, env=environment, **options)
    return done.returncode, done.stdout.decode(), done.stderr.decode()


def must(*command, **options):
    """The output of a command that has to succeed in silence."""
    status, out, errors = run(*command, **options)
    if status or errors:
        sys.exit('FAILED: %s: status %d: %s' % (' '.join(map(str, command)), status, errors))
    return out


def tree(folder):
    """Every path under a folder with its mode and its bytes or its link, in order."""
    found = {}
    for path in sorted(folder.rglob('*')):
        inner = os.readlink(path) if path.is_symlink() else hashlib.sha256(path.read_bytes()).hexdigest() if path.is_file() else 'folder'
        found[str(path.relative_to(folder))] = (oct(path.lstat().st_mode), inner)
    return found


def different(a, b):
    """The keys of which two dictionaries have different values, or that only one of them has."""
    return ', '.join(sorted(str(key) for key in set(a) | set(b) if key not in a or key not in b or a[key] != b[key]))


def others(a, b):
    """What only one of two lists has."""
    return ', '.join(sorted(set(a) ^ set(b)))


# ---- installing

lines = dict(enumerate([line + '\n' for line in expected.lines()], 1))
see('the stored output is what ground.py works out; lines that are not', different(lines, dict(enumerate(WANT.splitlines(True), 1))))
must(INSTALL, PREFIX, cwd='/')
first = tree(PREFIX)
listed = must(INSTALL, '--list', PREFIX).splitlines()
there = [str(PREFIX / name) for name, (_, inner) in first.items() if inner != 'folder']
see('--list says what is there, %d files' % len(listed), others(listed, there))
NEEDED = 'include/watered.h lib/libwatered.a lib/libwatered.so lib/libwatered.so.1 lib/pkgconfig/watered.pc bin/rows bin/watered-plan'.split()
NEEDED += ['share/doc/watered/' + name for name in ('NOTICE', 'examples/window.c', 'examples/window.rs', 'examples/window.py', 'examples/README.md')]
see('every file that others rely on is there', ', '.join(name for name in NEEDED if name not in first))
modes = {name: '0o120777' if name == 'lib/libwatered.so' else '0o40755' if inner == 'folder' else
         '0o100755' if name.startswith('bin/') or name == 'lib/libwatered.so.1' else '0o100644' for name, (_, inner) in first.items()}
see('modes', different(modes, {name: mode for name, (mode, _) in first.items()}))
must(INSTALL, str(PREFIX) + '//')
see('a second run gives the same', different(first, tree(PREFIX)))

must(INSTALL, '/opt/watered', environment={'DESTDIR': str(FOLDER / 'staged folder')})
staged = tree(FOLDER / 'staged folder' / 'opt' / 'watered')
see('under DESTDIR only watered.pc differs', different(first, staged).replace('lib/pkgconfig/watered.pc', ''))
pc = (FOLDER / 'staged folder/opt/watered/lib/pkgconfig/watered.pc').read_text()
see('watered.pc under DESTDIR says PREFIX', '' if pc.startswith('prefix=/opt/watered\n') and 'staged' not in pc else pc)


# ---- the interface, in every place that declares it

SHARED = PREFIX / 'lib' / 'libwatered.so.1'
header = calls.of_header((PREFIX / 'include' / 'watered.h').read_text())
mentioned = set(re.findall(r'\b(watered_\w+)\(', re.sub(r'/\*.*?\*/', '', (PREFIX / 'include' / 'watered.h').read_text(), flags=re.S)))
see('the header: %d calls' % len(header), others(header, mentioned) or ('' if header else 'none'))
crate = {}
for path in (ROOT / 'crates' / 'watered_c' / 'src').glob('*.rt'):
    crate.update(calls.of_crate(path.read_text()))
see('the crate exports these, with these types', different(header, crate))
exported = [line.split()[-1] for line in must('nm', '-D', '--defined-only', SHARED).splitlines()]
see('the shared library has these and no other', others(header, exported))
see('window.py sets the types of all', different(header, calls.of_python(ROOT / 'examples' / 'window.py', SHARED)))
rust = calls.of_rust((ROOT / 'examples' / 'window.rs').read_text())
see('window.rs: %d of them, with these types' % len(rust), different({name: header.get(name) for name in rust}, rust) or ('' if rust else 'none'))
told = set(re.findall(r'`(watered_\w+)`', (ROOT / 'README.md').read_text())) - {crate.name for crate in (ROOT / 'crates').iterdir()}
see("README's table has them", others(header, told))

# ---- the refusals, in every place that lists them

NOT_OF_CALLS = {1, 3}   # the end of a file, and a bit that has no field
SOME = {2, 4, 5, 11}    # by document 01 and document 02, slip 6: those of every plan; with lent tables 7; with an edit 6
OF_CALLS = {'watered_overlap': SOME, 'watered_edit': SOME | {6, 7}, 'watered_run': SOME | {6, 7}}
OF_CALLS.update(dict.fromkeys(['watered_afresh', 'watered_open_afresh', 'watered_gradients', 'watered_open_gradients'], SOME | {7}))
WORDS = {5: 'a side of the box is outside 1 to 40000', 11: 'a radius is outside 0 to 20000'}

scope = calls.refusals_of_scope((ROOT / 'docs' / 'SCOPE.md').read_text())
readme = calls.refusals_of_readme((ROOT / 'README.md').read_text())
see("README's table of refusals has the %d numbers of docs/SCOPE.md" % len(scope), others(map(str, scope), map(str, readme)) or ('' if scope else 'none'))
header_text = (PREFIX / 'include' / 'watered.h').read_text()
named = calls.refusals_of_header(header_text)
see('the header names those that calls give', others(map(str, scope - NOT_OF_CALLS), map(str, named)))
see('and lists at each call those that it gives', different(OF_CALLS, calls.refusals_of_calls(header_text)))
pairs = {'rs': r'^ +(\d+) => "(.*)",$', 'py': r"^    (\d+): '(.*)',$", 'c': r'^    case (WATERED_\w+): return "(.*)";$'}
words = {kind: dict(re.findall(pair, (ROOT / 'examples' / ('window.' + kind)).read_text(), re.M)) for kind, pair in pairs.items()}
words['c'] = {str(number): words['c'].get(name) for number, name in named.items()}
see('window.rs, window.py and window.c have words for each', ', '.join(kind for kind in words if set(words[kind]) != set(map(str, named))))
see('and the same words', ', '.join(kind for kind in words if words[kind] != words['py']))
see('which say what was wrong', different({str(number): said for number, said in WORDS.items()}, {number: words['py'][number] for number in ('5', '11')}))

# ---- what the shared library and the archive are made of

dynamic = must('readelf', '-d', SHARED)
see('the soname is the name of the file', '' if '[%s]' % SHARED.name in re.search(r'.*SONAME.*', dynamic).group() else dynamic)
needs = set(re.findall(r'NEEDED.*\[([a-z]+)', dynamic))
see('it needs the C library and no other', others(needs, ['libc']))
sections = re.findall(r'^(\.\S+) +(\d+) ', must('size', '-A', PREFIX / 'lib' / 'libwatered.a'), re.M)
state = [name for name, size in sections if re.match(r'\.(data|bss|tdata|tbss)\b(?!\.rel\.ro)', name) and int(size)]
see('the archive has no place for state, of %d sections' % len(sections), ', '.join(state) or ('' if len(sections) > 10 else 'no sections'))
foreign = set(re.findall(r' U (\w+)', must('nm', '-u', PREFIX / 'lib' / 'libwatered.a')))
see('and calls only memcpy and memset', ', '.join(foreign - {'memcpy', 'memset'}) or ('' if foreign else 'nm says nothing'))


# ---- the examples against what was installed

def flags(static):
    """The compiler's flags by pkg-config, or read from watered.pc where there is no pkg-config."""
    if shutil.which('pkg-config'):
        return must('pkg-config', '--cflags', '--libs', *(['--static'] if static else []), 'watered', environment=PC).split()
    lines = (PREFIX / 'lib' / 'pkgconfig' / 'watered.pc').read_text().splitlines()
    values = dict(line.split('=', 1) for line in lines if re.match(r'\w+=', line))
    fields = dict(line.split(': ', 1) for line in lines if ': ' in line)
    joined = ' '.join(fields[name] for name in ['Cflags', 'Libs'] + (['Libs.private'] if static else []))
    while '${' in joined:
        joined = re.sub(r'\$\{(\w+)\}', lambda name: values[name.group(1)], joined)
    return joined.split()


def prints(name, *command, **options):
    out = must(*command, **options)
    see(name, '' if out == WANT else 'it printed:\n' + out)


def linked(program):
    return 'libwatered.so.1' in must('readelf', '-d', program)


PC = {'PKG_CONFIG_PATH': str(PREFIX / 'lib' / 'pkgconfig')}
LIB = {'LD_LIBRARY_PATH': str(PREFIX / 'lib')}
EXAMPLES = PREFIX / 'share' / 'doc' / 'watered' / 'examples'
see('flags', ' '.join(flags(True)) if flags(True) != ['-I%s/include' % PREFIX, '-L%s/lib' % PREFIX, '-lwatered', '-lm'] else '')
if shutil.which('pkg-config'):
    version = must('pkg-config', '--modversion', 'watered', environment=PC).strip()
    see('version %s is that of the soname' % version, '' if SHARED.name.endswith('.so.' + version.split('.')[0]) else SHARED.name)

must('gcc', *WARN, '-o', FOLDER / 'shared', EXAMPLES / 'window.c', *flags(False))
see('window.c, shared, is linked with the shared library', '' if linked(FOLDER / 'shared') else 'it is not')
prints('window.c, shared', FOLDER / 'shared', environment=LIB)
archive = [word for one in flags(True) for word in (['-Wl,-Bstatic', one, '-Wl,-Bdynamic'] if one == '-lwatered' else [one])]
must('gcc', *WARN, '-o', FOLDER / 'static', EXAMPLES / 'window.c', *archive)
see('window.c, static, is not', 'it is' if linked(FOLDER / 'static') else '')
prints('window.c, static', FOLDER / 'static')

RUSTC = ['rustc', '--edition', '2021', '-D', 'warnings', EXAMPLES / 'window.rs', '-L', 'native=%s/lib' % PREFIX]
must(*RUSTC, '-o', FOLDER / 'rust-shared', '-l', 'dylib=watered')
see('window.rs, shared, is linked with the shared library', '' if linked(FOLDER / 'rust-shared') else 'it is not')
prints('window.rs, shared', FOLDER / 'rust-shared', environment=LIB)
must(*RUSTC, '-o', FOLDER / 'rust-static', '-l', 'static=watered', '-l', 'm')
see('window.rs, static, is not', 'it is' if linked(FOLDER / 'rust-static') else '')
prints('window.rs, static', FOLDER / 'rust-static')

WINDOW = ['python3', '-B', EXAMPLES / 'window.py']
prints('window.py, by the path of the library', *WINDOW, PREFIX / 'lib' / 'libwatered.so', cwd='/')
prints('window.py, by its name', *WINDOW, cwd='/', environment=LIB)
status, out, errors = run(*WINDOW, '/nowhere/lib.so')
see('window.py without a library: words and status 1', '' if (status, out) == (1, '') and errors.startswith('window: cannot use the library') else errors)

must('gcc', *WARN, '-pthread', '-o', FOLDER / 'stack', ROOT / 'tests' / 'install' / 'stack.c', *archive)
answers = run(FOLDER / 'stack')
see('every call over ten heads in 128 KB of stack', '' if answers == (0, '0000000\n', '') else answers)


# ---- the programs

ROWS, PLAN = PREFIX / 'bin' / 'rows', PREFIX / 'bin' / 'watered-plan'
DOCUMENT = bytes.fromhex('010C140000000A00000003E8030000E8030000')
see("rows: document 01's example", '' if must(ROWS, input=DOCUMENT) == '000 4069000000000000\n001 0000000000000000\n' else must(ROWS, input=DOCUMENT))


def last_plan(path):
    """Box and heads of a text after its moves."""
    box, heads, moves = file.values(text.parse(path.read_bytes()))
    for number, fields in moves:
        heads[number] = fields
    return box, heads


def unlike(printed, path):
    """Where the table that `rows` printed is not the ground that ground.py works out, to a square centimetre."""
    rows = {int(mask, 16): struct.unpack('>d', bytes.fromhex(bits))[0] for mask, bits in map(str.split, printed.splitlines())}
    areas = ground.exclusives(*last_plan(path))
    return ', '.join('%03X' % mask for mask in areas if not abs(rows.get(mask, 0.0) - areas[mask]) < 1)


for name in ('corner.txt', 'strip.txt', 'closed.txt'):
    plan = ROOT / 'example' / name
    done = subprocess.run([PLAN, plan], stdout=subprocess.PIPE, check=True, cwd='/', env=ENVIRONMENT)
    see('rows of %s' % name, unlike(must(ROWS, input=done.stdout), plan))
    for option in ('--table', '--svg', '--why'):
        same = must(PLAN, option, plan, cwd='/') == must(ROOT / 'tools' / 'plan', option, plan)
        see('watered-plan %s of %s' % (option, name), '' if same else 'not what tools/plan prints')
(FOLDER / 'link').symlink_to(PLAN)
see('watered-plan through a link', '' if 'watered-plan --table' in must(FOLDER / 'link', '--help', cwd='/') else 'its help')

# without its own program and library it says so, and does not take another tree's
CORNER = ROOT / 'example' / 'corner.txt'
for option, part in (('--table', 'bin/rows'), ('--why', 'lib/libwatered.so.1')):
    (PREFIX / part).rename(FOLDER / 'away')
    status, out, errors = run(PLAN, option, CORNER)
    (FOLDER / 'away').rename(PREFIX / part)
    see('watered-plan %s without %s' % (option, part), '' if (status, out) == (1, '') and 'install it anew' in errors else errors or out)


# ---- what must be refused, and leaves everything as it was

def refused(name, status, words, *arguments, **environment):
    before = tree(FOLDER)
    got, out, errors = run(INSTALL, *arguments, environment=environment, cwd=FOLDER)
    if (got, out) != (status, '') or words not in errors:
        see(name, 'status %d, printed %r, said %r' % (got, out, errors))
    see('refused: ' + name, different(before, tree(FOLDER)))


refused('no PREFIX', 2, 'one PREFIX is wanted')
refused('two of them', 2, 'one PREFIX is wanted', PREFIX, PREFIX)
refused('an option that there is not', 2, 'no such option: --prefix', '--prefix', PREFIX)
refused('--list without PREFIX', 2, 'one PREFIX is wanted', '--list')
refused('an empty PREFIX', 2, 'has to begin with /', '')
refused('a PREFIX that does not begin with /', 2, 'has to begin with /', 'here')
for sign in (' ', '\n', '"', "'", '$', '#', '\\', '`', '[', ']', '*'):
    refused('a PREFIX with %r' % sign, 2, 'a space or a sign', str(FOLDER / ('a%sb' % sign)))
(FOLDER / 'file').write_text('')
refused('a PREFIX under a file', 1, 'cannot make the folder', FOLDER / 'file' / 'prefix')
refused('a PREFIX that is a file', 1, 'cannot make the folder', FOLDER / 'file')
refused('a PREFIX that nobody can write', 1, 'cannot make the folder', '/proc/nowhere')
(FOLDER / 'half' / 'share').mkdir(parents=True)
(FOLDER / 'half' / 'share' / 'doc').write_text('')
refused('a file in the way of the last folder', 1, 'cannot make the folder', FOLDER / 'half')
(FOLDER / 'other' / 'bin' / 'rows').mkdir(parents=True)
refused('a folder in the way of a file', 1, 'is a folder, where a file should go', FOLDER / 'other')
shutil.rmtree(PREFIX / 'share' / 'doc')
(PREFIX / 'share' / 'doc').write_text('')
(PREFIX / 'include' / 'watered.h').write_text('an older one')
refused('over an older copy', 1, 'cannot make the folder', PREFIX)

# ---- removed, as --help says

(PREFIX / 'share' / 'doc').unlink()
must(INSTALL, PREFIX)
see('after that it can be installed anew', different(first, tree(PREFIX)))
status, words, _ = run(INSTALL, '--help')
command = re.search(r"tools/install --list PREFIX \| .*", words)
see('--help says how to remove it', '' if status == 0 and command else words)
must('bash', '-c', command.group().replace('PREFIX', str(PREFIX)), cwd=ROOT)
left = [name for name, (_, inner) in tree(PREFIX).items() if inner != 'folder']
see('and it is gone', ', '.join(left))

print('%d passed, 0 failed' % passed)
