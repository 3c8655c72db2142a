#!/usr/bin/env python3
"""Runs a program of the store once for each allocation that it makes, with that one allocation refused.

    tools/refuse_each_allocation.py PROGRAM SCRIPT..
    tools/refuse_each_allocation.py PROGRAM

PROGRAM is what `rt run` left in crates/auth_store_script/out; with no script, in crates/auth_store_recovery/out. The
allocation that is refused is the one that the C library's `malloc` or `realloc` is asked for at that place, by a small
library that is loaded before it (gcc makes it). The gate does not run this.

What has to hold of a script, and is compared: the run ends with status 3 where the script itself found no memory,
having printed the first lines of the allowed run; else the line that met the refusal prints `error S4`, and every other
line prints what it prints in an allowed run of the script without that line (a refused commit leaves out its puts too),
or, where it is a commit whose bytes were on their way to the disk, each later line that asks the store prints
`error S6` and every other one what it prints without those. With ample memory no line prints `error S4`.

What has to hold of the recovery: it ends with status 0, and its lines are answers of one store, one after the other, of
which one call at most found no memory (`outcomes` says which there are). A commit that was refused may be in or out,
until a later line tells; what was acknowledged stands. What is answered is that of tools/store_model.py. With ample
memory nothing is refused.
"""
import os
import re
import subprocess
import sys
import tempfile
from functools import lru_cache
from typing import NamedTuple

import store_model as model

SHIM = r"""
#define _GNU_SOURCE
#include <stddef.h>
#include <stdlib.h>
#include <stdio.h>
#include <unistd.h>
extern void *__libc_malloc(size_t);
extern void *__libc_realloc(void *, size_t);
static long calls, refused = -1;
static int refuse(void) {
    if (refused < 0) { char *at = getenv("REFUSED"); refused = at ? atol(at) : 0; }
    return ++calls == refused;
}
void *malloc(size_t n) { return refuse() ? NULL : __libc_malloc(n); }
void *realloc(void *p, size_t n) { return refuse() ? NULL : __libc_realloc(p, n); }
__attribute__((destructor)) static void told(void) {
    char text[32];
    int n = snprintf(text, sizeof text, "calls=%ld\n", calls);
    if (write(2, text, n) < 0) {}
}
"""


def run(program, shim, script, refused):
    env = dict(os.environ, LD_PRELOAD=shim, REFUSED=str(refused))
    ran = subprocess.run([program], input=script, capture_output=True, env=env, timeout=60)
    calls = int(ran.stderr.decode().rsplit("calls=", 1)[1]) if b"calls=" in ran.stderr else None
    return ran.stdout.decode().splitlines(), ran.returncode, calls


def answering(lines):
    """The indexes of the lines that print something."""
    return [i for i, line in enumerate(lines) if line and not line.startswith("put ")]


def without(lines, at):
    """The script without the line at this index, and without the puts of a commit there."""
    left = list(lines)
    if lines[at].startswith("commit"):
        i = at - 1
        while i >= 0 and not lines[i].startswith(("commit", "open", "new")):
            if lines[i].startswith("put "):
                left[i] = ""
            i -= 1
    left[at] = ""
    return left


# the lines that ask the store
ASKS = re.compile(r"(commit( \d+)?|(get|prove) [0-9A-Fa-f]{16}|prune \d+|root|floor|len)$")


def failed(lines, at, program, shim):
    """What the script prints where the commit at this index leaves a store that has failed, and its status."""
    left = without(lines, at)
    for i in range(at + 1, len(lines)):
        if ASKS.match(left[i]):
            left[i] = ""
    others, status, _ = run(program, shim, "\n".join(left).encode(), 0)
    others, wanted = iter(others), []
    for i in answering(lines):
        if i == at:
            wanted.append("error S4")
        elif i > at and ASKS.match(lines[i]):
            wanted.append("error S6")
        else:
            wanted.append(next(others))
            if wanted[-1].startswith("bad line"):
                break
    return wanted, status


def check(program, shim, path):
    script = open(path, "rb").read()
    lines = script.decode().split("\n")
    allowed, status, calls = run(program, shim, script, 0)
    assert "error S4" not in allowed, f"{path}: want of memory was answered though there was memory"
    kept, counts = {}, {"S4": 0, "S4 and failed": 0, "status 3": 0, "no difference": 0}
    for refused in range(1, calls + 1):
        printed, ended, _ = run(program, shim, script, refused)
        if ended == 3:
            assert printed == allowed[: len(printed)], (path, refused, printed)
            counts["status 3"] += 1
        elif "error S4" in printed:
            place = printed.index("error S4")
            at = answering(lines)[place]
            if at not in kept:
                others, other_status, _ = run(program, shim, "\n".join(without(lines, at)).encode(), 0)
                kept[at] = [(others[:place] + ["error S4"] + others[place:], other_status)]
                if lines[at].startswith("commit"):
                    kept[at].append(failed(lines, at, program, shim))
            assert (printed, ended) in kept[at], (path, refused, printed, kept[at])
            counts["S4" if (printed, ended) == kept[at][0] else "S4 and failed"] += 1
        else:
            assert (printed, ended) == (allowed, status), (path, refused, printed)
            counts["no difference"] += 1
    print(f"{path}: {calls} allocations refused in turn: {counts}")


A, B, C = (model.number(ord(letter)) for letter in "abc")
REOPEN = [("close",), ("crash",), ("open",)]

# the steps of the recovery, one a line
STEPS = [("open",)]
STEPS += [("commit", (("put", A, model.number(1)), ("put", B, model.number(2))))]
STEPS += [("commit", (("put", C, model.number(3)),))]
STEPS += [*REOPEN, ("commit", (("delete", A),)), ("get", B), ("get", A), ("prove", C), ("prove", A)]
STEPS += [("operation", 9, 10), ("range", 4, 10), ("slice", 0, 10), ("prune", 4), ("root",)]
STEPS += [*REOPEN, ("get", C), ("commits",), ("floor",), ("len",), ("close",), ("openings",), ("by chance",)]


class State(NamedTuple):
    """What may stand after some lines: batches are lists of words, and `pending` is one that an opening may show."""

    mode: str = "closed"
    batches: tuple = ()
    pending: tuple = ()
    root: str = None  # the last that was answered
    openings: int = 0
    is_refused: bool = False  # whether an allocation was refused


@lru_cache(maxsize=None)
def told(batches):
    """What a store answers whose history has these batches: map, root, floor, and whether each operation is active."""
    history = []
    for words in batches:
        history.append((model.after(history[-1][0] if history else {}, words), None))
    state = history[-1][0] if history else {}
    return state, model.root(history, 1).hex(), model.floor(history), model.bits(model.log_of(history))


def shows_claim(state, asked):
    """Whether the proof of the asked key shows what is claimed whichever it is: the value of c, or the absence of a. A
    proof of absence is that of the key before, and shows each key absent up to the next one."""
    if asked in state:
        return asked == C
    before = [max((k for k in state if k < key), default=max(state, default=None)) for key in (asked, A)]
    return A not in state and before[0] == before[1]


def outcomes(old, step):
    """The lines that a step may print, each with what may stand after it."""
    kind, *of = step
    refusals = [] if old.is_refused else [old._replace(is_refused=True)]
    if kind in ("openings", "by chance"):
        yield (f"openings {old.openings}" if kind == "openings" else "by chance 0"), old
        if kind == "by chance":
            yield from (("out of memory", new) for new in refusals)
        return
    if kind == "commit":  # its batch was not made
        yield from (("out of memory", new) for new in refusals)
    if old.mode == "closed":
        if kind == "open":
            for shown in {old.batches, old.batches + old.pending}:
                new = old._replace(mode="live", batches=shown, pending=(), openings=old.openings + 1)
                yield "opened", new
            for new in refusals:  # before the device was opened, or after it
                yield "error S4", new
                yield "error S4", new._replace(openings=old.openings + 1)
        else:
            yield ("crashed" if kind == "crash" else "not open"), old
        return
    if kind in ("open", "crash"):
        yield "still open", old
        return
    if kind == "close":
        yield "closed", old._replace(mode="closed")
        return
    if old.mode == "failed":
        yield "error S6", old
        return
    if kind == "commit":
        batches = old.batches + (of[0],)
        yield f"committed {told(batches)[1]}", old._replace(batches=batches, root=told(batches)[1])
        for new in refusals:
            yield "error S4", new
            yield "error S4", new._replace(mode="failed", pending=(of[0],))
        return
    state, root, floor, active = told(old.batches)
    checked = "yes" if old.root == root else "no" if old.root else "no root"
    if kind in ("operation", "range", "slice"):  # no chunk is pruned
        if len(active) < of[1]:
            yield "error S9", old
        elif kind == "operation" and not active[of[0]]:
            yield "error S8", old
        else:
            yield f"{kind} {checked}", old
            yield from ((f"{kind} out of memory", new) for new in refusals)
            yield from (("error S4", new) for new in refusals)
    elif kind in ("get", "prove"):
        yield from (("error S4", new) for new in refusals)
        value = int.from_bytes(state[of[0]], "big") if of[0] in state else None
        if kind == "get":
            yield ("none" if value is None else f"value {value}"), old
        else:
            found = "absent" if value is None else f"present {value}"
            if checked == "yes" and not shows_claim(state, of[0]):
                checked = "no"
            yield f"{found} {checked}", old
            yield from ((f"{found} out of memory", new) for new in refusals)
    elif kind == "prune":
        # Fewer operations than a chunk has stand before each floor that there is.
        yield ("pruned 0" if of[0] <= floor else "error S7"), old
    elif kind == "root":
        yield f"root {root}", old._replace(root=root)
    else:
        yield f"{kind} {({'commits': len(old.batches), 'floor': floor, 'len': len(active)})[kind]}", old


def not_explained(printed, is_refused):
    """The index of the first line that one refused allocation, or none, does not explain; or None."""
    if printed == ["out of memory"] and not is_refused:  # there was no device
        return None
    states = {State(is_refused=is_refused)}
    for i, (line, step) in enumerate(zip(printed, STEPS)):
        states = {new for old in states for text, new in outcomes(old, step) if text == line}
        if not states:
            return i
    return None if len(printed) == len(STEPS) else min(len(printed), len(STEPS))


def check_recovery(program, shim):
    allowed, status, calls = run(program, shim, b"", 0)
    assert (status, not_explained(allowed, True)) == (0, None), ("with ample memory", status, allowed)
    counts = {}
    for refused in range(1, calls + 1):
        printed, ended, _ = run(program, shim, b"", refused)
        wrong = not_explained(printed, False)
        assert (ended, wrong) == (0, None), (refused, ended, wrong, printed)
        met = [f"line {i}: {line}" for i, (line, other) in enumerate(zip(printed, allowed), 1) if line != other]
        what = met[0] if met else "no difference"
        counts[what] = counts.get(what, 0) + 1
    print(f"{program}: {calls} allocations refused in turn: {counts}")


def main():
    program, *scripts = sys.argv[1:]
    with tempfile.TemporaryDirectory() as folder:
        source, shim = os.path.join(folder, "shim.c"), os.path.join(folder, "shim.so")
        open(source, "w").write(SHIM)
        subprocess.run(["gcc", "-shared", "-fPIC", "-O1", "-o", shim, source], check=True)
        for path in scripts:
            check(program, shim, path)
        if not scripts:
            check_recovery(program, shim)


if __name__ == "__main__":
    main()
