#!/bin/sh
# Times loads of 200,000 rows of three INTs and of 1,000,000 rows of one, by INSERTs of 100 rows, alone and with a SELECT
# of all, in the proved program and, where it is installed, in SQLite in memory. Prints the seconds, those of the processor,
# the peak memory in MiB, and rows a second. Then, by the processor's time of the best of five, the part of SQLite's time
# that the first load and its SELECT take, at most a half, how long an INSERT of one row takes, at most 5.3 microseconds,
# and how much memory a row of a SELECT takes, at most 96 bytes with three INTs and 64 with one. The status is 1 where one
# of these does not hold.
. "$(dirname "$0")/setup.sh"
PYTHONPATH="$top/bench" python3 -B - "$work/load.sql" "$program" <<'PYTHON'
import random, shutil, subprocess, sys
from timed import measured, timed

script, program = sys.argv[1:]
numbers = random.Random(1)

def write(name, inserts, columns, select):
    with open(name, "w") as out:
        out.write("CREATE TABLE t (%s);\n" % ", ".join("c%d INT" % place for place in range(columns)))
        for _ in range(inserts):
            row = lambda: "(%s)" % ",".join(str(numbers.randrange(-10**9, 10**9)) for _ in range(columns))
            out.write("INSERT INTO t VALUES %s;\n" % ",".join(row() for _ in range(100)))
        if select:
            out.write("SELECT * FROM t;\n")

def load(inserts, columns):
    print("%d INSERTs of 100 rows of %d INTs" % (inserts, columns))
    took = {}
    for select in (False, True):
        numbers.seed(1)
        write(script, inserts, columns, select)
        print("and SELECT * of all" if select else "alone")
        took["hawq", select] = timed("hawq", [program, "run", script])
        if shutil.which("sqlite3"):
            with open(script) as given:
                took["sqlite3", select] = timed("sqlite3", ["sqlite3", ":memory:"], stdin=given, stdout=subprocess.DEVNULL)
    with open(script + ".out", "rb") as replies:
        print("the last reply is", replies.read().splitlines()[-1].decode())
    for name in ("hawq", "sqlite3"):
        if (name, True) in took:
            rows = inserts * 100
            print("%-8s %10s rows inserted a second, %10s selected" % (name, format(int(rows / took[name, False]), ","), format(int(rows / (took[name, True] - took[name, False])), ",")))

def best(*words, **where):
    """The least processor seconds of five runs."""
    return min(measured(list(words), stdout=subprocess.DEVNULL, **where).processor for _ in range(5))

held = True
def bound(what, found, most):
    global held
    held = held and found <= most
    print("%-48s %6.2f, at most %.2f%s" % (what, found, most, "" if found <= most else ": NOT HELD"))

def peak(inserts, columns, select):
    numbers.seed(1)
    write(script, inserts, columns, select)
    return measured([program, "run", script], stdout=subprocess.DEVNULL).peak * 2**20

load(2000, 3)
load(10000, 1)
if shutil.which("sqlite3"):
    numbers.seed(1)
    write(script, 2000, 3, True)
    def in_sqlite():
        with open(script) as given:
            return measured(["sqlite3", ":memory:"], stdin=given, stdout=subprocess.DEVNULL).processor
    bound("the first load and its SELECT, to SQLite's", best(program, "run", script) / min(in_sqlite() for _ in range(5)), 0.5)
ONES = 99_000
with open(script, "w") as out:
    out.write("CREATE TABLE t (a INT);")
nothing = best(program, "run", script)
with open(script, "a") as out:
    out.write("".join("INSERT INTO t VALUES (%d);" % number for number in range(ONES)))
bound("microseconds of an INSERT of one row", (best(program, "run", script) - nothing) / ONES * 1e6, 5.3)
bound("bytes of a row of three INTs in a SELECT", (peak(2000, 3, True) - peak(2000, 3, False)) / 200_000, 96)
bound("bytes of a row of one INT in a SELECT", (peak(10000, 1, True) - peak(10000, 1, False)) / 1_000_000, 64)
sys.exit(0 if held else 1)
PYTHON
