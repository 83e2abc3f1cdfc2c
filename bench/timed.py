"""Runs a command, and tells its seconds, those of the processor, its peak memory in MiB and its exit status."""
import os, shutil, subprocess, tempfile, time
from collections import namedtuple

Measured = namedtuple("Measured", "seconds processor peak status")

# A command that Python starts counts Python's own memory as its peak until it has more; one that GNU time starts doesn't.
GNU_TIME = shutil.which("time")


def measured(words, **where):
    with tempfile.NamedTemporaryFile("r") as peak:
        launcher = [GNU_TIME, "-q", "-f", "%M", "-o", peak.name] if GNU_TIME else []
        start = time.monotonic()
        process = subprocess.Popen(launcher + words, **where)
        _, status, usage = os.wait4(process.pid, 0)
        seconds = time.monotonic() - start
        kib = int(peak.read()) if GNU_TIME else usage.ru_maxrss
    return Measured(seconds, usage.ru_utime + usage.ru_stime, kib / 1024, status >> 8)


def timed(name, words, **where):
    took = measured(words, **where)
    print("%-8s %7.3f s, %7.3f s of the processor  %7.1f MiB at the peak  status %d" % (name, *took))
    return took.seconds
