#!/bin/sh
# Fills a table in memory with 1,000,000 rows of one INT, by inserts of 100 or of 10,000 rows, and scans it, in the proved
# layers alone: no statement is read, and nothing is sorted or printed. Prints processor seconds, rows and bytes a second,
# and the peak memory beside the bytes of the table's files. A scan is timed block by block, as a query reads, and into one
# list of all rows: with fresh pages for these each time, which the system clears, and with those of the scan before, which
# the C library is told to keep. Then the same rows as a script, in the program and, where it is installed, in SQLite in
# memory. Block by block 20,000,000 rows a second must come: the status is 1 where they do not.
. "$(dirname "$0")/setup.sh"
layers="$top/crates/hq_bench/out/hq_bench"
[ -x "$layers" ] || (cd "$top/crates/hq_bench" && rt run -- table 100 10 1 >/dev/null)
slices="$top/crates/hq_slicetests/out/hq_slicetests"
[ -x "$slices" ] || (cd "$top/crates/hq_slicetests" && rt run -- blocks 100 10 1 >/dev/null)
PYTHONPATH="$top/bench" python3 -B - "$work/fill.sql" "$program" "$layers" "$slices" <<'PYTHON'
import os, re, shutil, subprocess, sys
from timed import measured

script, program, layers, slices = sys.argv[1:]
ROWS, SCANS, WANTED = 1_000_000, 10, 20_000_000


def file_bytes(at_once):
    """Each insert adds one block to each of 16 files: 16 bytes, and 9 for each row. Larger shares take more blocks."""
    shares = [(at_once + 15 - bucket) // 16 for bucket in range(16)]
    most = (65_536 - 16) // 9
    blocks = sum(-(-share // most) for share in shares)
    return ROWS // at_once * (16 * blocks + 9 * at_once)


def tell(name, seconds, size):
    print("%-22s %6.3f s  %11s rows a second  %7.1f MB a second" % (name, seconds, format(int(ROWS / seconds), ","), size / seconds / 1e6))


def run(*words, **where):
    """The best of five, by the processor's time."""
    runs = [measured([layers, "table", *map(str, words)], stdout=subprocess.DEVNULL, **where) for _ in range(5)]
    return min(runs, key=lambda took: took.processor)


def by_blocks(at_once):
    """Seconds of the processor that a scan block by block takes, the least of five times ten."""
    def once():
        told = subprocess.run([slices, "blocks", str(ROWS), str(at_once), str(SCANS)], check=True, capture_output=True, text=True).stdout
        return int(re.fullmatch(r"\d+ rows in (\d+) microseconds\n", told)[1]) / 1e6 / SCANS

    return min(once() for _ in range(5))


KEEPING = {**os.environ, "MALLOC_MMAP_MAX_": "0", "MALLOC_TRIM_THRESHOLD_": str(1 << 40)}


nothing = run(0, 100, 0)
held = True
for at_once in (100, 10_000):
    size = file_bytes(at_once)
    filled, scanned = run(ROWS, at_once, 0), run(ROWS, at_once, SCANS)
    print("%d rows by inserts of %d: files of %.1f MiB" % (ROWS, at_once, size / 2**20))
    tell("inserted", filled.processor - nothing.processor, size)
    seconds = by_blocks(at_once)
    held &= ROWS / seconds >= WANTED
    tell("scanned block by block", seconds, size)
    tell("a list, fresh pages", (scanned.processor - filled.processor) / SCANS, size)
    once, again = run(ROWS, at_once, 1, env=KEEPING), run(ROWS, at_once, 1 + SCANS, env=KEEPING)
    tell("a list, kept pages", (again.processor - once.processor) / SCANS, size)
    grown = (filled.peak - nothing.peak) * 2**20
    print("the peak grew by %.1f MiB, which is %.2f of the files' bytes" % (grown / 2**20, grown / size))

with open(script, "w") as out:
    out.write("CREATE TABLE t (a INT);\n")
    for first in range(0, ROWS, 100):
        out.write("INSERT INTO t VALUES %s;\n" % ",".join("(%d)" % number for number in range(first, first + 100)))
print("the same rows as a script of INSERTs of 100")
tell("hawq", measured([program, "run", script]).processor, file_bytes(100))
if shutil.which("sqlite3"):
    def sqlite(queries):
        with open(script, "a") as out:
            out.write("SELECT sum(a) FROM t;\n" * queries)
        with open(script) as given:
            return measured(["sqlite3", ":memory:"], stdin=given, stdout=subprocess.DEVNULL)

    filled, scanned = sqlite(0), sqlite(SCANS)
    tell("sqlite3", filled.processor, file_bytes(100))
    tell("sqlite3, SELECT sum(a)", (scanned.processor - filled.processor) / SCANS, file_bytes(100))
print("block by block at least %s rows a second%s" % (format(WANTED, ","), "" if held else ": NOT HELD"))
sys.exit(0 if held else 1)
PYTHON
