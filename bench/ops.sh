#!/bin/sh
# Times a join of 100,000 by 100,000 rows, a grouping of 1,000,000 rows into 1,000 groups with a count and a sum, and a
# sort of 1,000,000 rows, all of two INTs, in the proved operators and, where it is installed, in SQLite in memory. What
# comes out is kept as rows in both. Prints the processor time of the best of three in seconds, and rows a second, since
# the clock tells little where other work runs.
set -e
top=$(cd "$(dirname "$0")/.." && pwd)
program="$top/crates/hq_bench/out/hq_bench"
[ -x "$program" ] || (cd "$top/crates/hq_bench" && rt run -- blocks int 100 3 3 >/dev/null)
python3 - "$program" <<'PYTHON'
import re, shutil, subprocess, sys

def best(times):
    return min(times() for _ in range(3))

def ours(kind, rows):
    told = subprocess.run([sys.argv[1], "operators", kind, str(rows)], check=True, capture_output=True, text=True).stdout
    return int(re.search(r"in ([0-9]+) microseconds", told).group(1)) / 1e6

NUMBERS = "WITH RECURSIVE n(i) AS (SELECT 0 UNION ALL SELECT i + 1 FROM n WHERE i < %d) "
MAKE = "CREATE TABLE %s (k INT, v INT); " + NUMBERS + "INSERT INTO %s SELECT %s, i FROM n;\n"

def table(name, rows, key):
    return MAKE % (name, rows - 1, name, key)

CASES = {
    "join": (100000, 200000, table("l", 100000, "i") + table("r", 100000, "i * 7919 % 100003"), "SELECT l.k, l.v, r.k AS x, r.v AS y FROM l JOIN r ON l.k = r.k"),
    "group": (1000000, 1000000, table("t", 1000000, "i * 7919 % 1000"), "SELECT k, COUNT(*), SUM(v) FROM t GROUP BY k"),
    "sort": (1000000, 1000000, table("t", 1000000, "i * 7919 % 1000003"), "SELECT * FROM t ORDER BY k, v"),
}

def theirs(make, select):
    script = make + ".timer on\nCREATE TABLE found AS " + select + ";\n"
    told = subprocess.run(["sqlite3", ":memory:"], input=script, capture_output=True, check=True, text=True).stdout
    return sum(map(float, re.search(r"user ([0-9.]+) sys ([0-9.]+)", told).groups()))

for kind, (rows, read, make, select) in CASES.items():
    took = {"hawq": best(lambda: ours(kind, rows))}
    if shutil.which("sqlite3"):
        took["sqlite3"] = best(lambda: theirs(make, select))
    for name, time_taken in took.items():
        print("%-6s %-8s %6.2f s %12s rows a second" % (kind, name, time_taken, format(int(read / time_taken), ",")))
PYTHON
