"""What the tests of load share: the program rows, counted checks, and a last line `NAME: N checks, M failed`."""
import os
import sys

ROOT = os.path.dirname(os.path.dirname(os.path.dirname(os.path.abspath(__file__))))
sys.path[:0] = [os.path.join(ROOT, 'tests', 'plan'), os.path.join(ROOT, 'tools')]

# tools/rows starts the program and gives it a status.
TOOL = os.path.join(ROOT, 'tools', 'rows')
PROGRAM = os.path.join(ROOT, 'target', 'bin', 'rows')
LIMIT = 20      # seconds that a run may take before it counts as hanging


class Checks:
    """Counts what was looked at, by kind, and prints the first faults."""

    def __init__(self, name):
        self.name, self.failed, self.kinds = name, 0, {}

    def see(self, kind, wrong):
        """One check: `wrong` is None or says what is wrong."""
        self.kinds[kind] = self.kinds.get(kind, 0) + 1
        if wrong:
            self.failed += 1
            if self.failed <= 20:
                print('fault: %s: %s' % (kind, str(wrong)[:2000]))

    def same(self, kind, got, wanted):
        self.see(kind, None if got == wanted else 'wanted %.900r, got %.900r' % (wanted, got))

    def end(self):
        for kind, number in self.kinds.items():
            print('%7d %s' % (number, kind))
        print('%s: %d checks, %d failed' % (self.name, sum(self.kinds.values()), self.failed))
        sys.exit(1 if self.failed else 0)
