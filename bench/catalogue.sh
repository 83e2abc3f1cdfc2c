#!/bin/sh
# Times the answers of a catalogue: 64 sessions, each of which looks at what changed since its last look, takes one of the
# 64 lanes of a table, writes a row outside of the clock, and commits. Prints answers a second, by the clock and by the
# processor, of each kind and of all together, the best of five, since other work takes the processors too. One processor
# must give 500,000 of all a second: the status is 1 where it does not.
set -e
top=$(cd "$(dirname "$0")/.." && pwd)
program="$top/crates/hq_catalogtests/out/hq_catalogtests"
[ -x "$program" ] || (cd "$top/crates/hq_catalogtests" && rt run -- answers 1 >/dev/null)
python3 - "$program" <<'PYTHON'
import re, subprocess, sys

ROUNDS = 5000
LEAST = 500000
KINDS = ["looks", "lanes", "commits"]

def once():
    """Of each kind and of all: how many answers, and nanoseconds by the clock and by the processor."""
    told = subprocess.run([sys.argv[1], "answers", str(ROUNDS)], check=True, capture_output=True, text=True).stdout
    found = {}
    for line in told.splitlines():
        count, kind, clock, processor = re.fullmatch(r"(\d+) (\w+) in (\d+) nanoseconds, of the processor (\d+)", line).groups()
        found[kind] = (int(count), int(clock), int(processor))
    found["all answers"] = tuple(map(sum, zip(*(found[kind] for kind in KINDS))))
    return found

def a_second(count, nanoseconds):
    return 1e9 * count / max(nanoseconds, 1)

runs = [once() for _ in range(5)]
for kind in KINDS + ["all answers"]:
    clock = max(a_second(count, clock) for count, clock, _ in (run[kind] for run in runs))
    processor = max(a_second(count, processor) for count, _, processor in (run[kind] for run in runs))
    print("%-12s %12s a second by the clock, %12s by the processor" % (kind, format(int(clock), ","), format(int(processor), ",")))
held = processor >= LEAST
print("of all by one processor at least %s%s" % (format(LEAST, ","), "" if held else ": NOT HELD"))
sys.exit(0 if held else 1)
PYTHON
