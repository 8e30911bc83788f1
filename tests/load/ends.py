"""ends.py BYTES: the two ends of the program rows. Its memory over inputs of BYTES bytes beside that of a small one; input that stops in the
middle, that comes byte by byte, that cannot be read; output that is closed, full, slow, or whose reader has gone. The program itself ends
with 0, does not take SIGPIPE, and says on standard error what it could not do; tools/rows gives the status, and takes SIGPIPE as any script."""
import array
import fcntl
import os
import signal
import subprocess
import sys
import termios
import time

import checks
import trials

CHECKS = checks.Checks('ends')
PROGRAM = checks.PROGRAM
BOTH = (PROGRAM, checks.TOOL)
UNREAD, UNWRITTEN = 'rows: standard input could not be read\n', 'rows: standard output could not be written\n'
EXAMPLE = bytes.fromhex('010C140000000A00000003E8030000E8030000')
SAMPLE = trials.plan_file([0, 0, 400, 300], [[-20, 5, 90], [60, -10, 70], [10, 40, 55]], [(1, [None, None, 80]), (0, [15, None, None])])
# ten heads, each within the one before: the longest table, 1,024 rows
TEN = trials.plan_file([0, 0, 4000, 3000], [[0, 0, 1000 - i] for i in range(10)])


def run(command, **ends):
    """Status, standard output and standard error of a run; the status is None where it hangs."""
    try:
        done = subprocess.run([command], timeout=checks.LIMIT, **ends)
        return done.returncode, (done.stdout or b'').decode(), (done.stderr or b'').decode()
    except subprocess.TimeoutExpired:
        return None, '', ''


def at_once(data):
    return run(PROGRAM, input=data, capture_output=True)[1]


def state(process):
    """What /proc says of a process: its letter, R where it runs and S where it waits, and the seconds that it has run."""
    with open('/proc/%d/stat' % process.pid) as stat:
        fields = stat.read().rsplit(')', 1)[1].split()
    return fields[0], (int(fields[11]) + int(fields[12])) / os.sysconf('SC_CLK_TCK')


def wait_until_read(process):
    """Waits until a process has read all that its input has, and waits for more; whether that came within the limit."""
    left, end = array.array('i', [0]), time.monotonic() + checks.LIMIT
    while time.monotonic() < end:
        fcntl.ioctl(process.stdin, termios.FIONREAD, left)
        if left[0] == 0 and state(process)[0] == 'S':
            return True
        time.sleep(0.01)
    return False


# ---- memory

START = trials.plan_file([0, 0, 3000, 2000], [[0, 0, 300]])
LAST = b'\0' + trials.record([900, 0, 300])
EDITS = b''.join(b'\0' + trials.record([i % 2000 - 1000, -i % 700, 300]) for i in range(70000))


def peak(command, pieces):
    """Feeds a program: its peak memory in KB when it has read all, what it then prints, and how many bytes it was fed."""
    process = subprocess.Popen(command, stdin=subprocess.PIPE, stdout=subprocess.PIPE)
    total = 0
    for piece in pieces:
        process.stdin.write(piece)
        total += len(piece)
    process.stdin.flush()
    wait_until_read(process)
    with open('/proc/%d/status' % process.pid) as status:
        kilobytes = next(int(line.split()[1]) for line in status if line.startswith('VmHWM:'))
    printed = process.communicate()[0].decode()
    return kilobytes, printed, total


def times(size):
    """How often EDITS stands in at least `size` bytes."""
    return -(-size // len(EDITS))


def long_input(first, size, last):
    yield first
    for _ in range(times(size)):
        yield EDITS
    yield last


def memory(size):
    """A plan of one head with edits for `size` bytes: taken; refused at the last edit; cut within it; refused at byte 0 and read on."""
    small = peak([PROGRAM], [START, LAST])
    CHECKS.same('answers over inputs of any length', small[1], at_once(START + LAST))
    body = len(START) + times(size) * len(EDITS)
    cases = [('taken', START, LAST, small[1]), ('refused at the end', START, b'\1', 'refused 6 at %d\n' % body),
             ('cut at the end', START, LAST[:7], 'refused 1 at %d\n' % (body + 7)), ('refused at the beginning', b'\13', LAST, 'refused 2 at 0\n')]
    for name, first, last, wanted in cases:
        began = time.monotonic()
        kilobytes, printed, total = peak([PROGRAM], long_input(first, size, last))
        print('%9d bytes, %s: %.1f s, peak memory %d KB, beside %d KB for %d bytes' % (
            total, name, time.monotonic() - began, kilobytes, small[0], small[2]))
        CHECKS.same('answers over inputs of any length', printed, wanted)
        CHECKS.see('peak memory within 1 MB of a small input\'s', None if kilobytes <= small[0] + 1024 else '%d KB, %d KB' % (kilobytes, small[0]))
    # a program that holds its input is seen
    holds = [sys.executable, '-S', '-c', 'import sys; data = sys.stdin.buffer.read()']
    grown = peak(holds, long_input(START, min(size, 5000000), LAST))[0] - peak(holds, [START, LAST])[0]
    CHECKS.see('a program that holds its input is seen', None if grown > 1024 else 'it grew by %d KB' % grown)


# ---- input

def stops_in_the_middle():
    """The writer stops at every place of a file: nothing is printed and no time used up while it may go on; then its end is the refusal."""
    whole = trials.file_lines(SAMPLE)
    CHECKS.same('the whole file is taken', whole[-1], 'taken')
    for end in range(len(SAMPLE)):
        wanted = trials.file_lines(SAMPLE[:end])[-1]
        printed = at_once(SAMPLE[:end])
        CHECKS.see('input that ends at any byte', None if (printed == wanted + '\n' or (wanted == 'taken' and printed[:4] == '000 ')) else (end, printed))
    for end in (0, 1, 9, 20, len(SAMPLE) - 1):
        process = subprocess.Popen([PROGRAM], stdin=subprocess.PIPE, stdout=subprocess.PIPE)
        process.stdin.write(SAMPLE[:end])
        process.stdin.flush()
        waits = wait_until_read(process)
        used = state(process)[1]
        os.set_blocking(process.stdout.fileno(), False)
        time.sleep(0.2)
        early = process.stdout.read()
        CHECKS.see('input that stops is waited for', None if (waits, early, state(process)[1] - used < 0.05) == (True, None, True) else (waits, early))
        os.set_blocking(process.stdout.fileno(), True)
        printed = process.communicate(timeout=checks.LIMIT)[0].decode()
        CHECKS.same('input that stops is waited for', printed, trials.file_lines(SAMPLE[:end])[-1] + '\n')


def slowly(data, pause, interrupt):
    """What the program prints for input that comes byte by byte, stopped and continued in between where `interrupt`."""
    process = subprocess.Popen([PROGRAM], stdin=subprocess.PIPE, stdout=subprocess.PIPE, bufsize=0)
    for i in range(len(data)):
        process.stdin.write(data[i:i + 1])
        time.sleep(pause)
        if interrupt and i % 5 == 0:
            process.send_signal(signal.SIGSTOP)
            process.send_signal(signal.SIGCONT)
    return process.communicate(timeout=checks.LIMIT)[0].decode()


def slow_pipe():
    for data in (EXAMPLE, SAMPLE, TEN, SAMPLE[:-3], SAMPLE + b'\7\0'):
        CHECKS.same('input byte by byte, as at once', slowly(data, 0.002, False), at_once(data))
    CHECKS.same('input byte by byte, as at once', slowly(EXAMPLE, 0.05, False), at_once(EXAMPLE))
    CHECKS.same('input of a program stopped and continued, as at once', slowly(SAMPLE, 0.002, True), at_once(SAMPLE))


def unread_input():
    """A folder, a file open for writing alone, nothing open, and an empty pipe that does not wait: no row, the reason, and the tool's status."""
    for command, status in zip(BOTH, (0, 2)):
        wanted = status, '', UNREAD
        folder, null = os.open('/', os.O_RDONLY), os.open('/dev/null', os.O_WRONLY)
        reading, writing = os.pipe()
        os.set_blocking(reading, False)
        for name, end in (('a folder', folder), ('a file open for writing', null), ('a pipe that does not wait', reading)):
            CHECKS.same('input that cannot be read: %s' % name, run(command, stdin=end, capture_output=True), wanted)
        CHECKS.same('input that cannot be read: closed', run(command, preexec_fn=lambda: os.close(0), capture_output=True), wanted)
        for end in (folder, null, reading, writing):
            os.close(end)


# ---- output

def reader_gone(command, data):
    """Status and standard error where nobody reads standard output."""
    reading, writing = os.pipe()
    os.close(reading)
    done = run(command, input=data, stdout=writing, stderr=subprocess.PIPE)
    os.close(writing)
    return done[0], done[2]


def unwritten_output():
    for command, status in zip(BOTH, (0, 2)):
        for data in (EXAMPLE, TEN, b''):
            done = run(command, input=data, preexec_fn=lambda: os.close(1), stderr=subprocess.PIPE)
            CHECKS.same('output that is closed', done, (status, '', UNWRITTEN))
            with open('/dev/full', 'wb') as full:
                CHECKS.same('output to a full device', run(command, input=data, stdout=full, stderr=subprocess.PIPE), (status, '', UNWRITTEN))
            gone = (0, UNWRITTEN) if command == PROGRAM else (-signal.SIGPIPE, '')
            CHECKS.same('output whose reader has gone', reader_gone(command, data), gone)
        ends = run(command, preexec_fn=lambda: os.closerange(0, 3))
        CHECKS.same('both ends closed, and standard error', ends, (status, '', ''))


def ignored_pipe_signal():
    """A reader that has gone, where SIGPIPE is ignored, as under some servers: said, and the tool's status."""
    for command, status in zip(BOTH, (0, 2)):
        reading, writing = os.pipe()
        os.close(reading)
        ignore = lambda: signal.signal(signal.SIGPIPE, signal.SIG_IGN)
        done = run(command, input=EXAMPLE, stdout=writing, stderr=subprocess.PIPE, preexec_fn=ignore)
        os.close(writing)
        CHECKS.same('output whose reader has gone, its signal ignored', done, (status, '', UNWRITTEN))


def output_that_does_not_wait():
    """A pipe of one page that does not wait for its reader: what did not fit is said."""
    for command, status in zip(BOTH, (0, 2)):
        reading, writing = os.pipe()
        fcntl.fcntl(writing, fcntl.F_SETPIPE_SZ, 4096)
        os.set_blocking(writing, False)
        done = run(command, input=TEN, stdout=writing, stderr=subprocess.PIPE)
        for end in (reading, writing):
            os.close(end)
        CHECKS.same('output to a pipe that does not wait', done, (status, '', UNWRITTEN))


def slow_reader():
    """A pipe of one page that is emptied slowly: the whole table."""
    wanted = at_once(TEN)
    CHECKS.same('the longest table has 1,024 rows', wanted.count('\n'), 1024)
    for command in BOTH:
        process = subprocess.Popen([command], stdin=subprocess.PIPE, stdout=subprocess.PIPE, bufsize=0)
        fcntl.fcntl(process.stdout, fcntl.F_SETPIPE_SZ, 4096)
        process.stdin.write(TEN)
        process.stdin.close()
        got = b''
        while True:
            piece = process.stdout.read(500)
            if not piece:
                break
            got += piece
            time.sleep(0.002)
        CHECKS.same('output that is read slowly, as at once', (process.wait(), got.decode()), (0, wanted))


def tool_status():
    """The tool prints what the program prints, and its status is 1 for a refusal."""
    for data in list(trials.fixed_files())[::7] + [EXAMPLE, TEN, b'']:
        printed = at_once(data)
        CHECKS.same('the status of tools/rows', run(checks.TOOL, input=data, capture_output=True), (int(printed.startswith('refused ')), printed, ''))


def main():
    memory(int(sys.argv[1]))
    stops_in_the_middle()
    slow_pipe()
    unread_input()
    unwritten_output()
    ignored_pipe_signal()
    output_that_does_not_wait()
    slow_reader()
    tool_status()
    CHECKS.end()


main()
