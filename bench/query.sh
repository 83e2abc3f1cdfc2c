#!/bin/sh
# Times a grouping of 1,000,000 rows of two INTs into 1,000 groups with a count and a sum, and a join of them with 100,000
# others on an INT, as queries over 1 and over 4 nodes of a table in memory, by the clock, and, where they are installed, in
# SQLite in memory and in PostgreSQL. Prints the best of five in seconds. Ends with status 1 where 4 nodes take more than 0.6
# of the time of 1, which is asked of a machine with four processors or more.
set -e
top=$(cd "$(dirname "$0")/.." && pwd)
program="$top/crates/hq_querytests/out/hq_querytests"
[ -x "$program" ] || (cd "$top/crates/hq_querytests" && rt run -- group 100 1 1 >/dev/null)
python3 - "$program" <<'PYTHON'
import os, re, shutil, subprocess, sys, tempfile

ROWS, ROUNDS, MOST = 1_000_000, 5, 0.6

NUMBERS = "WITH RECURSIVE n(i) AS (SELECT CAST(0 AS BIGINT) UNION ALL SELECT i + 1 FROM n WHERE i < %d) INSERT INTO %s SELECT %s FROM n;\n"
# What the program fills its tables with: the numbers of the groups come in turn, and those of the join are all others.
TABLES = {
    "group": [("u", ROWS, "i, i * 7919 %% 1000")],
    "join": [("u", ROWS, "i, i * 7919 %% 1000003"), ("v", ROWS // 10, "i, i * 10")],
}
# In row order, as ours come.
SELECTS = {
    "group": "SELECT n, count(*), sum(k) FROM u GROUP BY n ORDER BY n",
    "join": "SELECT u.k AS a, v.k AS b FROM u JOIN v ON u.n = v.n ORDER BY u.k, v.k",
}


def ours(work, nodes):
    told = subprocess.run([sys.argv[1], work, str(ROWS), str(nodes), str(ROUNDS)], check=True, capture_output=True, text=True).stdout
    rows, took = map(int, re.fullmatch(r"(\d+) rows in (\d+) microseconds\n", told).groups())
    return rows, took / 1e6


def filled(work):
    return "".join("CREATE TABLE %s (k BIGINT, n BIGINT);\n" % name + NUMBERS % (rows - 1, name, columns.replace("%%", "%")) for name, rows, columns in TABLES[work])


def found(work):
    """What comes out is kept as rows, as ours is."""
    return "".join("CREATE TEMPORARY TABLE found%d AS %s;\n" % (time, SELECTS[work]) for time in range(ROUNDS))


def sqlite(work):
    script = filled(work) + ".timer on\n" + found(work)
    told = subprocess.run(["sqlite3", ":memory:"], input=script, capture_output=True, check=True, text=True).stdout
    return min(map(float, re.findall(r"real ([0-9.]+)", told)))


def postgres(work):
    """Over a server of its own in a folder of its own, which ends with it."""
    binaries = os.path.dirname(os.path.realpath(shutil.which("postgres")))
    as_user = ["setpriv", "--reuid=postgres", "--regid=postgres", "--clear-groups"] if os.geteuid() == 0 else []
    with tempfile.TemporaryDirectory() as folder:
        if as_user:
            shutil.chown(folder, "postgres", "postgres")
        quiet = dict(check=True, stdout=subprocess.DEVNULL, stderr=subprocess.DEVNULL, cwd=folder)
        subprocess.run(as_user + [binaries + "/initdb", "-D", folder + "/data", "-A", "trust", "-U", "bench"], **quiet)
        serves = ["-k", folder, "-c", "listen_addresses=", "-c", "work_mem=256MB", "-c", "shared_buffers=256MB", "-c", "temp_buffers=256MB"]
        subprocess.run(as_user + [binaries + "/pg_ctl", "-D", folder + "/data", "-l", folder + "/log", "-w", "-o", " ".join(serves), "start"], **quiet)
        try:
            script = filled(work) + "ANALYZE;\n\\timing on\n" + found(work)
            told = subprocess.run(["psql", "-X", "-v", "ON_ERROR_STOP=1", "-h", folder, "-U", "bench", "postgres"], input=script, capture_output=True, check=True, text=True).stdout
        finally:
            subprocess.run(as_user + [binaries + "/pg_ctl", "-D", folder + "/data", "-m", "immediate", "stop"], **quiet)
    return min(float(took) for took in re.findall(r"SELECT \d+\nTime: ([0-9.]+) ms", told)) / 1e3


short = False
for work in ("group", "join"):
    rows, one = ours(work, 1)
    same, four = ours(work, 4)
    print("%-5s %7d rows  hawq, 1 node %6.3f s  4 nodes %6.3f s  %.2f of it" % (work, rows, one, four, four / one), end="")
    if shutil.which("sqlite3"):
        print("  SQLite %6.3f s" % sqlite(work), end="")
    if shutil.which("postgres"):
        print("  PostgreSQL %6.3f s" % postgres(work), end="")
    print(flush=True)
    short |= four > MOST * one or rows != same
if len(os.sched_getaffinity(0)) < 4:
    print("fewer than four processors: the bound is not asked")
    short = False
sys.exit(1 if short else 0)
PYTHON
