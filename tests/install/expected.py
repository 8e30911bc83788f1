"""Prints examples/window.txt, what the programs of examples/ print: every number worked out by ground.py, apart from the library. The plans are
such that a set is present exactly if its heads share ground; a closed head is left out of what ground.py is asked."""
import ground

BOX = [0, 0, 1200, 900]
HEADS = [[-350, -150, 380], [150, -80, 350], [100, 250, 300]]
ALL = [0, 0, 40000, 40000]  # as good as no box
ALONE = 1  # the set whose gradient is printed: head 0


def set_of(mask):
    return ','.join(str(i) for i in range(10) if mask >> i & 1) or 'none'


def table(heads, numbers=(0, 1, 2)):
    """The rows of heads that have these numbers in the plan."""
    inside, open_ground = ground.exclusives(BOX, heads), ground.exclusives(ALL, heads)
    yield '  heads        together        alone'
    for mask in inside:
        if mask == 0 or ground.together(open_ground, mask) > 1e-3:
            named = sum(1 << number for i, number in enumerate(numbers) if mask >> i & 1)
            yield '  %-8s %12.2f %12.2f' % (set_of(named), ground.together(inside, mask) / 1e4, inside[mask] / 1e4)


def lines():
    heads = [list(head) for head in HEADS]
    yield 'ground of 12.00 by 9.00 m, 3 heads, areas in m2'
    yield from table(heads)
    yield ''
    yield 'head 2 to (450, 300), radius 300: taken'
    heads[2] = [450, 300, 300]
    yield from table(heads)
    yield ''
    yield 'head 1 to (150, -80), radius -1: refused 11, a radius is outside 0 to 20000'
    yield '  nothing changed'
    yield ''
    yield 'head 1 to (150, -80), radius 0: taken'
    yield from table([heads[0], heads[2]], [0, 2])
    yield ''
    yield 'head 1 to (150, -80), radius 350: taken'
    yield from table(heads)
    yield '  plan and tables are, bit for bit, those from before head 1 was closed'
    yield ''
    yield 'head 2 to (-120, 150), radius 320: taken'
    heads[2] = [-120, 150, 320]
    yield from table(heads)
    yield ''
    yield 'the edited tables are, bit for bit, those worked out afresh'
    yield ''
    by = [value / 100 for value in ground.gradient(BOX, heads, ALONE)]
    yield 'what heads %s water alone, in m2 for each metre' % set_of(ALONE)
    yield '  by              x        y   radius'
    for i in range(3):
        yield '  head %-3d %8.2f %8.2f %8.2f' % (i, *by[3 * i:3 * i + 3])
    yield '  box      %8.2f %8.2f' % tuple(by[9:11])
    yield '  and in m2 by ln(width*height) %.2f, by ln(width/height) %.2f' % (by[11] / 100, by[12] / 100)
    yield ''
    yield 'all 3 heads together, without the box: %.2f m2' % (ground.together(ground.exclusives(ALL, heads), 7) / 1e4)


if __name__ == '__main__':
    print('\n'.join(lines()))
