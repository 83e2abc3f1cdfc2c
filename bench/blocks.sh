#!/bin/sh
# Times rows written into blocks and read from them, and prints rows a second. Each block has one column: of integers, or
# of texts of 28 bytes.
set -e
top=$(cd "$(dirname "$0")/.." && pwd)
program="$top/crates/hq_bench/out/hq_bench"
[ -x "$program" ] || (cd "$top/crates/hq_bench" && rt run -- blocks int 100 3 3 >/dev/null)
python3 - "$program" <<'PYTHON'
import subprocess, sys, time

def seconds(*words):
    start = time.monotonic()
    subprocess.run([sys.argv[1], "blocks", *map(str, words)], check=True, stdout=subprocess.DEVNULL)
    return time.monotonic() - start

TIMES = 1000
for kind, rows in (("int", 7000), ("text", 2000)):
    base = seconds(kind, rows, 0, 0)
    for name, writes, reads in (("written", TIMES, 0), ("read", 0, TIMES)):
        took = seconds(kind, rows, writes, reads) - base
        print("%-4s %-7s %12s rows a second" % (kind, name, format(int(rows * TIMES / took), ",")))
PYTHON
