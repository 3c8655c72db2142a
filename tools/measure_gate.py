#!/usr/bin/env python3
"""Runs the gate from nothing in a clone of its own, and says what it cost, by crate and kind.

    tools/measure_gate.py FOLDER [CORES]

Clones the commit that is checked out into FOLDER, which must not be there, and runs `rt ci` in it, which is to take nothing of
earlier runs (`--anew`, where the kit's rt knows the word; one that does not keeps nothing), on the first CORES processors
where that is said (`taskset`). The output goes to FOLDER.log. Prints a table in minutes of processor time: the proofs of each
crate, its tests, its edits with their seed; what is left is layout, compilers and runs. The processor time of each process of
the prover is read twice a second, so that a crate's figures lack at most a second each; the sum is that of all processes, as
the system counts it.
"""

import collections
import os
import pathlib
import resource
import shutil
import subprocess
import sys
import time

ROOT = pathlib.Path(__file__).resolve().parent.parent
KINDS = ("proofs", "tests", "edits")
TICKS = os.sysconf("SC_CLK_TCK")


def below(top):
    """The processes under this one, itself too."""
    parents = collections.defaultdict(list)
    for entry in os.scandir("/proc"):
        if entry.name.isdigit():
            try:
                parent = pathlib.Path(entry.path, "stat").read_text().rpartition(")")[2].split()[1]
            except (OSError, IndexError):
                continue
            parents[int(parent)].append(int(entry.name))
    found = [top]
    for pid in found:
        found += parents[pid]
    return found


def named(pid):
    """The crate and the kind of work of a process of the prover, or None."""
    try:
        words = pathlib.Path(f"/proc/{pid}/cmdline").read_bytes().decode(errors="replace").split("\0")
        folder = os.readlink(f"/proc/{pid}/cwd")
    except OSError:
        return None
    if "--crate-name" not in words:
        return None
    name = words[words.index("--crate-name") + 1]
    kind = "edits" if "rt-edit" in folder else "tests" if "--test" in words else "proofs"
    return name, kind


def used(pid):
    """The processor seconds of a process, without those of its children."""
    try:
        fields = pathlib.Path(f"/proc/{pid}/stat").read_text().rpartition(")")[2].split()
    except OSError:
        return None
    return (int(fields[11]) + int(fields[12])) / TICKS


def watched(run):
    """Waits for the run to end: the processor seconds of each crate and kind."""
    names, seconds = {}, {}
    while run.poll() is None:
        for pid in below(run.pid):
            if pid not in names:
                found = named(pid)
                if found:
                    names[pid] = found
            spent = used(pid)
            if pid in names and spent is not None:
                seconds[pid] = spent
        time.sleep(0.5)
    sums = collections.Counter()
    for pid, spent in seconds.items():
        sums[names[pid]] += spent
    return sums


def main():
    if len(sys.argv) not in (2, 3):
        sys.exit(__doc__.strip())
    folder = pathlib.Path(sys.argv[1]).resolve()
    subprocess.run(["git", "clone", "-q", ROOT, folder], check=True)
    words = ["rt", "ci"] + ["--anew"] * ("--anew" in pathlib.Path(shutil.which("rt")).read_text(encoding="utf-8"))
    if len(sys.argv) == 3:
        words = ["taskset", "-c", ",".join(map(str, range(int(sys.argv[2])))), *words]
    start = time.time()
    with open(f"{folder}.log", "w", encoding="utf-8") as log:
        run = subprocess.Popen(words, cwd=folder, stdout=log, stderr=subprocess.STDOUT, stdin=subprocess.DEVNULL)
        sums = watched(run)
    clock = time.time() - start
    spent = resource.getrusage(resource.RUSAGE_CHILDREN)
    total = spent.ru_utime + spent.ru_stime
    crates = sorted({name for name, _ in sums}, key=lambda name: -sum(sums[name, kind] for kind in KINDS))
    print("| Crate | Proofs | Tests | Edits |\n|---|---|---|---|")
    for name in crates:
        print(f"| `{name}` | " + " | ".join(f"{sums[name, kind] / 60:.1f}" if sums[name, kind] else "" for kind in KINDS) + " |")
    for kind in KINDS:
        print(f"{kind}: {sum(sums[name, kind] for name in crates) / 60:.1f} minutes")
    print(f"all: {total / 60:.1f} processor minutes, {clock / 60:.1f} of clock")
    last = pathlib.Path(f"{folder}.log").read_text(encoding="utf-8").rstrip().splitlines()[-1:]
    print(*last)
    return run.returncode


if __name__ == "__main__":
    sys.exit(main())
