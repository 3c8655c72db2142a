#!/usr/bin/env python3
"""Runs random scripts, and compares what the script's program prints with what the model says.

    tools/random_scripts.py PROGRAM [SECONDS] [FIRST]

PROGRAM is `auth_store_script`, built and linked (`rt run` leaves it in its crate's `out`). Scripts are of both
families, with commits, deletes, prunes, proofs, checks, cuts, faults and crashes; script number n is the same in every
run, and the first is FIRST. What each must print is told by tools/reference/scripts.py. Prints the first line in which
a script differs, and how many scripts there were.
"""
import pathlib
import random
import subprocess
import sys
import time

sys.path.insert(0, str(pathlib.Path(__file__).resolve().parent / "reference"))
import scripts


def batch(draw, key):
    """The lines of a commit, with its words before it."""
    for _ in range(draw.randint(0, 3)):
        yield f"put {key()} {draw.randrange(50)}" if draw.random() < 0.7 else f"del {key()}"
    yield draw.choice(["commit", "commit", f"commit {draw.randrange(9)}"])


def proof(draw, key):
    """The lines of a proof, with checks of it after it."""
    proved = key()
    yield f"prove {proved}"
    for _ in range(draw.randint(0, 3)):
        asked = draw.choice([proved, key()])
        yield draw.choice(["proof", f"check absent {asked}", f"check value {asked} {draw.randrange(50)}"])


def failure(draw):
    """A line after which the device fails."""
    kind = draw.choice(scripts.KINDS)
    rate = f"1 {draw.randint(2, 6)}"
    return draw.choice([f"cut {draw.randrange(12)}", f"fault {kind} {rate}", f"fault {kind} 0 1", "mode prefix"])


def reopened(draw, is_mended):
    """The lines that close the store and open it again, perhaps after a crash, perhaps with no fault from then on."""
    yield "close"
    if is_mended or draw.random() < 0.5:
        yield "crash"
    if is_mended:
        yield from (f"fault {kind} 0 1" for kind in scripts.KINDS)
    yield "open"


def script(number):
    """The lines of a script."""
    draw = random.Random(number)
    keys = [f"{place:016x}" for place in draw.sample(range(0x60, 0x70), draw.randint(1, 5))]
    is_faulty = draw.random() < 0.5

    def key():
        return draw.choice(keys)

    yield from (f"new {draw.choice(['mmr', 'mmb'])} {draw.randrange(1000)}", "open")
    for _ in range(draw.randint(5, 70)):
        kind = draw.randrange(10)
        if kind < 3:
            yield from batch(draw, key)
        elif kind < 5:
            yield f"prune {draw.choice([draw.randrange(40), draw.randrange(40), draw.randrange(2 ** 64)])}"
        elif kind < 7:
            yield from proof(draw, key)
        elif kind < 8:
            yield draw.choice([f"get {key()}", "root", "floor", "len"])
        elif kind < 9 and is_faulty:
            yield failure(draw)
        else:
            yield from reopened(draw, is_faulty)


def main():
    program, seconds, number, *_ = [*sys.argv[1:], *["60", "0"][max(len(sys.argv) - 2, 0):]]
    number = first = int(number)
    end, lines, bad = time.time() + float(seconds), 0, 0
    while time.time() < end:
        text = "".join(f"{line}\n" for line in script(number))
        ran = subprocess.run([program], input=text.encode(), capture_output=True)
        printed, status = scripts.run(text)
        said = ran.stdout.decode().splitlines()
        if said != printed or ran.returncode != status:
            bad += 1
            same = min(len(said), len(printed))
            at = next((i for i in range(same) if said[i] != printed[i]), same)
            print(f"script {number}, printed line {at + 1}: {said[at:at + 1]} where {printed[at:at + 1]} is wanted")
        lines += len(said)
        number += 1
    print(f"{number - first} scripts, {lines} lines, {bad} scripts differ")
    sys.exit(bad > 0)


if __name__ == "__main__":
    main()
