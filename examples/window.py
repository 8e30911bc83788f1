#!/usr/bin/env python3
"""window.py [LIBRARY]: the life of a drawing window: what examples/window.c does and prints, from Python.

LIBRARY is the shared library, by default libwatered.so.1 where the loader looks for it. `load` is all that a Python program needs of it:
ctypes checks what it is handed against the types given there. Without them it would hand over every number as a C int and take every answer
for one. examples/README.md says how the library is built."""
import ctypes
import math
import sys
from ctypes import POINTER, c_double as f64, c_int32 as i32, c_size_t as size, c_uint8 as u8, c_uint32 as u32

HEADS = 10
WORDS = {
    2: 'there are more than ten heads',
    4: 'x or y is outside -20000 to 20000',
    5: 'a side of the box is outside 1 to 40000',
    6: 'there is no head of this number',
    7: 'the tables are too short',
    11: 'a radius is outside 0 to 20000',
}

PLAN = [size, POINTER(i32), POINTER(i32)]  # n, box, heads
BYTES, NUMBERS, WHOLE, SIZES = ([POINTER(kind), size] for kind in (u8, f64, i32, size))  # a lent slice: pointer and count
TABLES = BYTES + NUMBERS + BYTES + NUMBERS  # presence, rows, exclusive presence, exclusives

# Every call of watered.h: what it gives, and what it takes.
CALLS = {
    'watered_afresh': (u32, PLAN + TABLES),
    'watered_open_afresh': (u32, PLAN + TABLES),
    'watered_gradients': (u32, PLAN + BYTES + NUMBERS + NUMBERS),
    'watered_open_gradients': (u32, PLAN + BYTES + NUMBERS + NUMBERS),
    'watered_overlap': (u32, PLAN + [POINTER(f64)]),
    'watered_edit': (u32, PLAN + [size, i32, i32, i32] + TABLES),
    'watered_run': (size, PLAN + SIZES + WHOLE + WHOLE + WHOLE + BYTES + TABLES),
    'watered_root': (f64, [f64]),
    'watered_hypot': (f64, [f64, f64]),
    'watered_sin': (f64, [f64]),
    'watered_cos': (f64, [f64]),
    'watered_atan2': (f64, [f64, f64]),
    'watered_acos': (f64, [f64]),
    'watered_asin': (f64, [f64]),
}


class Refused(Exception):
    """A call that was refused, by its number. Nothing was written."""

    def __str__(self):
        return 'refused %d, %s' % (self.args[0], WORDS.get(self.args[0], 'a number that this program does not know'))


def load(path):
    """The library with the types of all its calls. Raises OSError or AttributeError."""
    library = ctypes.CDLL(path)
    for name, (gives, takes) in CALLS.items():
        call = getattr(library, name)
        call.restype, call.argtypes = gives, takes
    return library


def demand(answer):
    if answer:
        raise Refused(answer)


def lent(*slices):
    """Arrays as the calls take them: each with its count of elements."""
    return [argument for one in slices for argument in (one, len(one))]


def set_of(mask):
    """The heads of a set by their numbers, such as 0,2."""
    return ','.join(str(i) for i in range(HEADS) if mask >> i & 1) or 'none'


class Window:
    """All that a window keeps of a plan, and all the state there is: the library has none."""

    def __init__(self, library, box, heads):
        self.library, self.n = library, len(heads)
        self.box = (i32 * 4)(*box)
        self.heads = (i32 * (3 * HEADS))(*[value for head in heads for value in head])
        count = 2 ** self.n
        self.presence, self.rows = (u8 * count)(), (f64 * count)()
        self.exclusive_presence, self.exclusives = (u8 * count)(), (f64 * count)()
        demand(library.watered_afresh(self.n, self.box, self.heads, *self.tables()))

    def tables(self):
        return lent(self.presence, self.rows, self.exclusive_presence, self.exclusives)

    def state(self):
        """Plan and tables in every bit."""
        return [bytes(part) for part in (self.box, self.heads, self.presence, self.rows, self.exclusive_presence, self.exclusives)]

    def show(self):
        """Both tables; areas come in square centimetres. A row without presence is no row."""
        print('  %-8s %12s %12s' % ('heads', 'together', 'alone'))
        for mask in range(2 ** self.n):
            if self.presence[mask]:
                print('  %-8s %12.2f %12.2f' % (set_of(mask), self.rows[mask] / 1e4, self.exclusives[mask] / 1e4))

    def edit(self, head, x, y, radius):
        demand(self.library.watered_edit(self.n, self.box, self.heads, head, x, y, radius, *self.tables()))

    def drag(self, head, x, y, radius):
        """One drag. A refused edit leaves plan and tables as they were: there is nothing to undo. Here that is looked at; a window need not."""
        before = self.state()
        print('\nhead %d to (%d, %d), radius %d: ' % (head, x, y, radius), end='')
        try:
            self.edit(head, x, y, radius)
            print('taken')
            self.show()
        except Refused as refused:
            print(refused)
            print('  ' + ('nothing changed' if self.state() == before else 'SOMETHING CHANGED'))

    def switch_off_and_on(self, head):
        """With radius 0 a head is closed: it keeps its number and its place, and its rows are absent. It is the window that remembers the radius.
        Opened again, it leaves plan and tables as they were before."""
        before, (x, y, radius) = self.state(), self.heads[3 * head:3 * head + 3]
        self.drag(head, x, y, 0)
        self.drag(head, x, y, radius)
        same = self.state() == before
        print('  plan and tables %s those from before head %d was closed' % ('are, bit for bit,' if same else 'ARE NOT', head))

    def show_gradient(self, mask):
        """How the ground that only the heads of a set water grows with every number of the plan."""
        count, width = 2 ** self.n, 3 * self.n + 4
        presence, exclusives, gradients = (u8 * count)(), (f64 * count)(), (f64 * (count * width))()
        demand(self.library.watered_gradients(self.n, self.box, self.heads, *lent(presence, exclusives, gradients)))
        row = gradients[mask * width:(mask + 1) * width]
        print('\nwhat heads %s water alone, in m2 for each metre' % set_of(mask))
        print('  %-8s %8s %8s %8s' % ('by', 'x', 'y', 'radius'))
        for i in range(self.n):
            print('  head %-3d %8.2f %8.2f %8.2f' % (i, *(by / 100 for by in row[3 * i:3 * i + 3])))
        x, y, size_of, shape_of = row[3 * self.n:]
        print('  %-8s %8.2f %8.2f' % ('box', x / 100, y / 100))
        print('  and in m2 by ln(width*height) %.2f, by ln(width/height) %.2f' % (size_of / 1e4, shape_of / 1e4))

    def hold_against_afresh(self):
        """The promise of the library: after any edits the tables are those worked out from the plan left, in every bit."""
        heads = [self.heads[3 * i:3 * i + 3] for i in range(self.n)]
        same = Window(self.library, self.box, heads).state() == self.state()
        print('\nthe edited tables %s those worked out afresh' % ('are, bit for bit,' if same else 'ARE NOT'))

    def overlap(self):
        area = f64(math.nan)
        demand(self.library.watered_overlap(self.n, self.box, self.heads, ctypes.byref(area)))
        return area.value


def life(library):
    w = Window(library, [0, 0, 1200, 900], [[-350, -150, 380], [150, -80, 350], [100, 250, 300]])
    print('ground of %.2f by %.2f m, %d heads, areas in m2' % (w.box[2] / 1e2, w.box[3] / 1e2, w.n))
    w.show()

    w.drag(2, 450, 300, 300)
    w.drag(1, 150, -80, -1)
    w.switch_off_and_on(1)
    w.drag(2, -120, 150, 320)
    w.hold_against_afresh()

    w.show_gradient(1)
    print('\nall %d heads together, without the box: %.2f m2' % (w.n, w.overlap() / 1e4))


def main(words):
    if len(words) > 1 or words[:1] in (['-h'], ['--help']):
        print(__doc__, file=sys.stdout if words[:1] in (['-h'], ['--help']) else sys.stderr)
        return 0 if words[:1] in (['-h'], ['--help']) else 2
    path = words[0] if words else 'libwatered.so.1'
    try:
        life(load(path))
        return 0
    except (OSError, AttributeError) as error:
        print('window: cannot use the library %s: %s' % (path, error), file=sys.stderr)
    except Refused as refused:
        print('window: %s' % refused, file=sys.stderr)
    return 1


if __name__ == '__main__':
    sys.exit(main(sys.argv[1:]))
