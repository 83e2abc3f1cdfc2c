"""The processor time of each crate's check from nothing, and of its dearest functions. See gate.sh."""
import os, re, shutil, subprocess, sys, tempfile

TICKS = os.sysconf("SC_CLK_TCK")
DONE = re.compile(r"checked (\S+), \d+ of \d+")


def lines_of(top):
    """The lines of crates.txt, each a name and what it stands on."""
    with open(f"{top}/crates.txt", encoding="utf-8") as file:
        return [line.strip() for line in file if line.strip() and not line.startswith("#")]


def name_of(line):
    return line.split(":")[0].split()[0]


def copied(top, into, name, other):
    """Copies the repository with this crate under another name, and what is kept of the others."""
    shutil.copy(f"{top}/HANDLES", into)
    word = re.compile(rf"\b{name}\b")
    with open(f"{into}/crates.txt", "w", encoding="utf-8") as file:
        for line in lines_of(top):
            is_it = name_of(line) == name
            file.write((word.sub(other, line, count=1) if is_it else line) + "\n")
    for line in lines_of(top):
        crate = name_of(line)
        if crate == name:
            shutil.copytree(f"{top}/crates/{crate}", f"{into}/crates/{other}", ignore=shutil.ignore_patterns("out", "must-fail"))
            rename(f"{into}/crates/{other}", word, other)
        else:
            # Copied by links where the disk allows it.
            shutil.copytree(f"{top}/crates/{crate}", f"{into}/crates/{crate}", copy_function=linked)


def linked(source, to):
    try:
        os.link(source, to)
    except OSError:
        shutil.copy2(source, to)


def rename(folder, word, other):
    for at, _, names in os.walk(folder):
        for name in names:
            if name.endswith((".rt", ".antt")):
                with open(f"{at}/{name}", encoding="utf-8") as file:
                    text = file.read()
                with open(f"{at}/{name}", "w", encoding="utf-8") as file:
                    file.write(word.sub(other, text))


def stat_of(pid):
    """A process's parent, and the processor time of it and of those that it has waited for."""
    with open(f"/proc/{pid}/stat", encoding="utf-8") as file:
        fields = file.read().rsplit(")", 1)[1].split()
    return int(fields[1]), sum(int(n) for n in fields[11:15]) / TICKS


def processor_of(crate):
    """The processor time of the check of this crate and of its running copies."""
    found, times = {}, {}
    for pid in filter(str.isdigit, os.listdir("/proc")):
        try:
            with open(f"/proc/{pid}/cmdline", encoding="utf-8") as file:
                words = file.read().split("\0")
            if "--crate-name" in words and words[words.index("--crate-name") + 1] == crate:
                found[int(pid)], times[int(pid)] = stat_of(pid)
        except (OSError, ValueError, IndexError):
            pass
    return sum(times.values())


def measured(into, other):
    """The whole time, and the time of each function, as its line is printed."""
    last, whole, functions, proved = 0.0, 0.0, [], False
    run = subprocess.Popen(["rt", "check", "--jobs", "1"], cwd=f"{into}/crates/{other}", text=True, stdout=subprocess.PIPE, stderr=subprocess.STDOUT)
    for line in run.stdout:
        now = processor_of(other)
        whole = max(whole, now)
        proved = proved or line.startswith("logic=proved")
        match = DONE.match(line)
        if match and match[1].startswith(f"{other}::"):
            functions.append((now - last, match[1].split("::", 1)[1]))
            last = now
    run.wait()
    return whole, sorted(functions, reverse=True), proved


def main():
    top, names = sys.argv[1], sys.argv[2:]
    total = 0.0
    for name in map(name_of, lines_of(top)):
        if names and name not in names:
            continue
        with tempfile.TemporaryDirectory() as into:
            other = f"{name}_anew"
            copied(top, into, name, other)
            whole, functions, proved = measured(into, other)
        total += whole
        dearest = ", ".join(f"{it} {seconds:.1f}" for seconds, it in functions[:3])
        print(f"{name:20} {whole:7.1f} s{'' if proved else ', not proved'}  {dearest}", flush=True)
    print(f"{'all':20} {total:7.1f} s of the processor")


main()
