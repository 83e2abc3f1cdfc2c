#!/bin/sh
# Times turns of the lock with one history: by one session alone, each with one entry, over histories of 0 to 10,000,000
# entries, in nanoseconds a turn; and by 1 to 16 sessions at once, each in a thread, in turns a second together. Prints
# the best of five, since other work takes the processors too.
set -e
top=$(cd "$(dirname "$0")/.." && pwd)
program="$top/crates/hq_locktests/out/hq_locktests"
[ -x "$program" ] || (cd "$top/crates/hq_locktests" && rt run >/dev/null)
python3 - "$program" <<'PYTHON'
import re, subprocess, sys

def nanoseconds_a_turn(kind, count, turns):
    def once():
        told = subprocess.run([sys.argv[1], kind, str(count), str(turns)], check=True, capture_output=True, text=True).stdout
        taken, took = map(int, re.fullmatch(r"(\d+) turns in (\d+) nanoseconds\n", told).groups())
        return took / taken
    return min(once() for _ in range(5))

for length in [0, 1000, 1000000, 10000000]:
    print("alone, over %8d entries: %6.1f nanoseconds a turn" % (length, nanoseconds_a_turn("alone", length, 1000000)))
for sessions in [1, 2, 4, 8, 16]:
    print("%2d sessions at once: %11s turns a second" % (sessions, format(int(1e9 / nanoseconds_a_turn("together", sessions, 500000)), ",")))
PYTHON
