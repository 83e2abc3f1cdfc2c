#!/bin/sh
# Times what an exchange carries: over a link in memory that gives each datagram in its turn, and over two sockets of this
# machine. Beside it plain datagrams of the same size go between two sockets: as they are, and each answered by one of 24
# bytes, as an exchange answers each piece. Prints megabytes a second of the clock and of the processor, the best of
# five, since other work takes the processors too, and the part of the plain datagrams' speed. The processor's time
# counts the making of the bytes too.
set -e
top=$(cd "$(dirname "$0")/.." && pwd)
program="$top/crates/hq_wiretests/out/hq_wiretests"
[ -x "$program" ] || (cd "$top/crates/hq_wiretests" && rt run -- memory 1 >/dev/null)
python3 - "$program" <<'PYTHON'
import re, resource, subprocess, sys

WAYS = {"plain": "plain datagrams", "answered": "the same, answered", "sockets": "an exchange over sockets", "memory": "an exchange in memory"}

def processor():
    spent = resource.getrusage(resource.RUSAGE_CHILDREN)
    return spent.ru_utime + spent.ru_stime

def once(way):
    before = processor()
    told = subprocess.run([sys.argv[1], way, "20"], check=True, capture_output=True, text=True).stdout
    count, took = map(int, re.fullmatch(r"(\d+) bytes in (\d+) nanoseconds\n", told).groups())
    return 1000 * count / took, count / (processor() - before) / 1e6

best = dict.fromkeys(WAYS, (0, 0))
for _ in range(5):
    for way in WAYS:
        best[way] = tuple(map(max, best[way], once(way)))
for way, name in WAYS.items():
    parts = [one / plain for one, plain in zip(best[way], best["plain"])]
    print("%-25s %6.1f MB a second, %4.2f of plain; by the processor %6.1f, %4.2f" % (name, best[way][0], parts[0], best[way][1], parts[1]))
PYTHON
