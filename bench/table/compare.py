"""compare.py FOLDER: what the programs of two trees wrote, side by side. For compare.

FOLDER/before.N.T.times and FOLDER/now.N.T.times: of the program whose functions are in order N, in turn T.
"""

import pathlib
import re
import sys
from statistics import mean, stdev

# A line of the program: a kind of plan, how many rows (or heads met), our microseconds, and more.
LINE = re.compile(r"(?P<kind>\S.*?)\s+\d+(?:\.\d+)?\s+(?P<ours>\d+\.\d+)\s+\d+\.\d+\s+\d+\.\d+\s+\d+\.\d+\s+\d+\.\d+")


def lines(path):
    """Our times of one run, each under the table and the kind of plan that it is of."""
    title = None
    for line in path.read_text().splitlines():
        of = LINE.fullmatch(line)
        if of:
            yield (title, of["kind"]), float(of["ours"])
        elif line and not line.startswith(" "):
            title = line


def times(folder, side):
    """For each table and kind of plan the least time of each order."""
    found = {}
    for path in folder.glob(f"{side}.*.times"):
        order = path.name.split(".")[1]
        for key, ours in lines(path):
            least = found.setdefault(key, {})
            least[order] = min(ours, least.get(order, ours))
    return found


def over_orders(least):
    """The mean over the orders, and its standard error."""
    return mean(least.values()), stdev(least.values()) / len(least) ** 0.5


def main():
    folder = pathlib.Path(sys.argv[1])
    before, now = times(folder, "before"), times(folder, "now")
    if not before or before.keys() != now.keys() or any(before[key].keys() != now[key].keys() for key in before):
        sys.exit("compare: the programs did not write the same lines")
    shown = None
    for title, kind in before:
        if title != shown:
            print(f"\n{title}\n{'':<26}{'before µs':>12}{'+-':>7}{'now µs':>12}{'+-':>7}{'more':>9}")
            shown = title
        (a, error_a), (b, error_b) = over_orders(before[title, kind]), over_orders(now[title, kind])
        print(f"{kind:<26}{a:>12.2f}{error_a:>7.2f}{b:>12.2f}{error_b:>7.2f}{100 * (b / a - 1):>+8.1f} %")


main()
