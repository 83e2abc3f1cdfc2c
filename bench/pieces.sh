#!/bin/sh
# Times the reading of a script of 64 MB with long texts and long comments, in the proved program, in `wc -c` over a pipe
# and, where it is installed, in SQLite in memory. Prints the seconds of each and their bytes a second.
. "$(dirname "$0")/setup.sh"
PYTHONPATH="$top/bench" python3 -B - "$work/pieces.sql" "$program" <<'PYTHON'
import os, shutil, subprocess, sys
from timed import timed

script, program = sys.argv[1:]
line = "words of a text; and it''s not the end of it, as 1 - 1 is not "
comment = "-- words of a comment; it's not the end of anything\n"
with open(script, "w") as out:
    for _ in range(1000):
        out.write("SELECT '%s';\n%s;\n" % (line * 512, comment * 630))
size = os.path.getsize(script)

def speed(name, words, **where):
    print("%-8s %7.0f MB a second" % (name, size / timed(name, words, **where) / 1e6))

print("%d bytes, 2,000 pieces" % size)
speed("hawq", [program, "run", script])
with open(script) as given:
    cat = subprocess.Popen(["cat"], stdin=given, stdout=subprocess.PIPE)
    speed("wc -c", ["wc", "-c"], stdin=cat.stdout, stdout=subprocess.DEVNULL)
if shutil.which("sqlite3"):
    with open(script) as given:
        speed("sqlite3", ["sqlite3", ":memory:"], stdin=given, stdout=subprocess.DEVNULL)
PYTHON
