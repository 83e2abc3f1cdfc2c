#!/bin/sh
# Times texts of some 60,000 bytes read as statements, and prints megabytes a second of processor time: an INSERT of tuples
# of three INTs, one of tuples of an INT and a text of 28 bytes, and a SELECT of long items.
set -e
top=$(cd "$(dirname "$0")/.." && pwd)
program="$top/crates/hq_bench/out/hq_bench"
{ [ -x "$program" ] && "$program" parse ints 1 1 >/dev/null 2>&1; } || (cd "$top/crates/hq_bench" && rt run -- parse ints 1 1 >/dev/null)
python3 - "$program" <<'PYTHON'
import resource, subprocess, sys

def spent():
    used = resource.getrusage(resource.RUSAGE_CHILDREN)
    return used.ru_utime + used.ru_stime

def read(shape, parts, times):
    before = spent()
    done = subprocess.run([sys.argv[1], "parse", shape, str(parts), str(times)], check=True, capture_output=True, text=True)
    return spent() - before, int(done.stdout.split()[-2])

TIMES = 2000
for shape, parts in (("ints", 3330), ("texts", 1460), ("select", 1570)):
    base, _ = read(shape, parts, 0)
    took, size = read(shape, parts, TIMES)
    print("%-7s %6d bytes %8.1f MB a second" % (shape, size, size * TIMES / (took - base) / 1e6))
PYTHON
