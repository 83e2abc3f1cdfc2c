#!/bin/sh
# Times what a motion does with rows of one INT: they are shared out over four nodes by that column, put into bytes, and
# read from bytes. Prints rows a second of the processor's time, the best of three times ten rounds of 1,000,000 rows, of
# each step and of both ways through bytes together. Ends with status 1 where a step, or both ways through bytes, makes
# less than 10,000,000 rows a second.
set -e
top=$(cd "$(dirname "$0")/.." && pwd)
program="$top/crates/hq_bench/out/hq_bench"
[ -x "$program" ] || (cd "$top/crates/hq_bench" && rt run -- blocks int 100 3 3 >/dev/null)
python3 - "$program" <<'PYTHON'
import re, subprocess, sys

WANTED = 10000000

def once(step):
    told = subprocess.run([sys.argv[1], "motions", step, "1000000", "10"], check=True, capture_output=True, text=True).stdout
    return tuple(map(int, re.fullmatch(r"(\d+) rows in (\d+) microseconds\n", told).groups()))

def seconds_a_row(step):
    return min(took / rows / 1e6 for rows, took in (once(step) for _ in range(3)))

took = {step: seconds_a_row(step) for step in ("split", "write", "read")}
took["bytes and back"] = took["write"] + took["read"]
short = False
for name, seconds in took.items():
    print("%-15s %12s rows a second" % (name, format(int(1 / seconds), ",")))
    short |= 1 / seconds < WANTED
sys.exit(1 if short else 0)
PYTHON
