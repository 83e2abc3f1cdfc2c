#!/bin/sh
# Times the writes of a transaction over stores in memory: rows of one INT, written by 4 nodes as one statement, beside the
# same rows only encoded, bucket by bucket, and appended; and the cut of a lane with a file in each bucket into parts. Prints
# the best of five in microseconds, by the clock and by the processor, of the cut the least time by the clock, and by the
# processor that of a cut with the lane made whole again. A write of 1,000 rows must take at most twice the processor time of
# what it is made of, since other work takes time by the clock, and a cut less than a microsecond: the status is 1 where one
# does not.
set -e
top=$(cd "$(dirname "$0")/.." && pwd)
program="$top/crates/hq_txntests/out/hq_txntests"
[ -x "$program" ] || (cd "$top/crates/hq_txntests" && rt run -- part 1 >/dev/null)
python3 - "$program" <<'PYTHON'
import re, subprocess, sys

def best(times, *words):
    """The microseconds of one of so many times, by the clock and by the processor."""
    def once():
        told = subprocess.run([sys.argv[1], *map(str, words), str(times)], check=True, capture_output=True, text=True).stdout
        return [int(it) / times / 1000 for it in re.fullmatch(r"(\d+) nanoseconds, of the processor (\d+)\n", told).groups()]
    runs = [once() for _ in range(5)]
    return min(clock for clock, _ in runs), min(processor for _, processor in runs)

def show(what, took):
    print("%-40s %9.2f by the clock, %9.2f by the processor" % (what, *took))
    return took[1]

held = True
def bound(what, found, most):
    global held
    held = held and found <= most
    print("%-40s %9.2f, at most %.2f%s" % (what, found, most, "" if found <= most else ": NOT HELD"))

for rows, times in [(1000, 2000), (100000, 20)]:
    append = show("%d rows encoded and appended" % rows, best(times, "append", rows))
    write = show("%d rows written by 4 nodes" % rows, best(times, "write", 4, rows))
    if rows == 1000:
        bound("  a write to what it is made of", write / append, 2)
TIMES = 100000
clock, processor = best(TIMES, "part")
show("a lane cut into parts", (clock * TIMES, processor))
bound("  the cut of a lane", clock * TIMES, 1)
sys.exit(0 if held else 1)
PYTHON
