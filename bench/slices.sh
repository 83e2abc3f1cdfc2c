#!/bin/sh
# Times slices of a plan over a table in memory of 1,000,000 rows of two INTs, written by inserts of 100 and of 10,000: one
# that keeps 8 rows of 1,000 by their key, and one that groups all rows by it with a count and a sum. Prints rows a second of
# the processor's time, the best of five times ten runs. Then what a slice that keeps one row of 1,000, or groups, takes of
# memory besides the table, over as many rows and over four times as many. Ends with status 1 where the grouping of the
# larger inserts makes less than 10,000,000 rows a second, or where a slice's memory grows by more than a mebibyte.
set -e
top=$(cd "$(dirname "$0")/.." && pwd)
program="$top/crates/hq_slicetests/out/hq_slicetests"
[ -x "$program" ] || (cd "$top/crates/hq_slicetests" && rt run -- group 100 10 1 >/dev/null)
PYTHONPATH="$top/bench" python3 -B - "$program" <<'PYTHON'
import re, subprocess, sys
from timed import measured

ROWS, WANTED = 1_000_000, 10_000_000


def rate(way, at_once):
    def once():
        told = subprocess.run([sys.argv[1], way, str(ROWS), str(at_once), "10"], check=True, capture_output=True, text=True).stdout
        rows, took = map(int, re.fullmatch(r"(\d+) rows in (\d+) microseconds\n", told).groups())
        return rows / took * 1e6

    return max(once() for _ in range(5))


def taken(way, rows):
    """How many MiB the peak grows where the table is read too."""
    peaks = [measured([sys.argv[1], way, str(rows), "10000", rounds], stdout=subprocess.DEVNULL, stderr=subprocess.DEVNULL).peak for rounds in ("0", "3")]
    return peaks[1] - peaks[0]


short = False
for way in ("filter", "group"):
    for at_once in (100, 10_000):
        found = rate(way, at_once)
        print("%-7s inserts of %6s: %12s rows a second" % (way, format(at_once, ","), format(int(found), ",")))
short |= found < WANTED
for way in ("few", "group"):
    once, more = taken(way, ROWS), taken(way, 4 * ROWS)
    print("%-7s takes %5.2f MiB besides the table, and %5.2f over four times the rows" % (way, once, more))
    short |= more > once + 1
sys.exit(1 if short else 0)
PYTHON
