#!/usr/bin/env python3
"""Tries the wrong bodies that the gate leaves out: the prover must refuse each, and a contract must be the reason.

    tools/try_wrong_bodies.py [--lanes N] [NAME..]

The gate tries the edits in crates/NAME/must-fail/; those in crates/NAME/wrong-bodies/ are of the same form and are tried
here, on a copy of the working tree, by `rt must-fail`, over libraries that are built first where they are not yet. With
names only those crates are tried. N crates are tried side by side (2 where nothing is said); each takes one processor and
up to 4 GB.

Prints each edit that was not refused, that could not be applied, or that was refused for another reason than a clause, an
invariant or the written proof of one; and last how many were tried. The status is 0 where nothing else was printed.
"""
import argparse
import concurrent.futures
import os
import pathlib
import re
import shutil
import subprocess
import sys
import tempfile

ROOT = pathlib.Path(__file__).resolve().parent.parent
SAID = re.compile(r"^(?:rt: )?must-fail (\S+\.edit): (.*)$")
# what the prover says where a clause of a contract, an invariant or a requirement is what does not hold
CONTRACT = re.compile(r"not proved|found no proof|does not hold|expected .* got|mismatch|proofs/\S+:\d+:\d+: error")


def copied(room):
    """A copy of the working tree in which each crate's wrong bodies stand where `rt must-fail` looks for edits."""
    listed = subprocess.run(["git", "ls-files", "-co", "--exclude-standard"], cwd=ROOT, capture_output=True, text=True, check=True)
    for name in listed.stdout.splitlines():
        if "/must-fail/" in name or not (ROOT / name).is_file():
            continue
        target = pathlib.Path(room) / name.replace("/wrong-bodies/", "/must-fail/")
        target.parent.mkdir(parents=True, exist_ok=True)
        shutil.copy2(ROOT / name, target)
    # what was built of the same sources need not be built again; where they differ, the build sees it
    for out in ROOT.glob("crates/*/out"):
        shutil.copytree(out, pathlib.Path(room) / out.relative_to(ROOT), symlinks=True)


def below(room):
    """For each crate of the repository the crates of it that it stands on, at first hand."""
    stands = {}
    for line in (pathlib.Path(room) / "crates.txt").read_text(encoding="utf-8").splitlines():
        name, _, on = line.partition("#")[0].partition(":")
        if name.strip():
            stands[name.split()[0]] = on.split()
    return {name: [it for it in on if it in stands] for name, on in stands.items()}


def built(room, names):
    """Builds the libraries on which these crates stand, the lowest first."""
    stands, done = below(room), []

    def build(name):
        for it in stands[name]:
            build(it)
            if it not in done:
                done.append(it)
                subprocess.run(["rt", "lib"], cwd=f"{room}/crates/{it}", stdin=subprocess.DEVNULL, capture_output=True, check=True)

    for name in names:
        build(name)


def tried(room, name):
    ran = subprocess.run(["rt", "must-fail", name], cwd=room, stdin=subprocess.DEVNULL, capture_output=True, text=True, errors="replace")
    return name, ran.stdout + ran.stderr


def main():
    words = argparse.ArgumentParser(description=__doc__.splitlines()[0])
    words.add_argument("names", nargs="*")
    words.add_argument("--lanes", type=int, default=2)
    given = words.parse_args()
    counts = {it.parent.name: len(list(it.glob("*.edit"))) for it in sorted(ROOT.glob("crates/*/wrong-bodies"))}
    names = given.names or list(counts)
    for name in names:
        if name not in counts:
            sys.exit(f"{name} has no folder wrong-bodies")
    good = bad = 0
    with tempfile.TemporaryDirectory(prefix="wrong-bodies-") as room:
        copied(room)
        built(room, names)
        with concurrent.futures.ThreadPoolExecutor(given.lanes) as lanes:
            for name, text in lanes.map(lambda it: tried(room, it), sorted(names, key=lambda it: -counts[it])):
                seen = 0
                for line in text.splitlines():
                    said = SAID.match(line)
                    if not said:
                        continue
                    seen += 1
                    rest = said[2]
                    by_contract = rest.startswith("refused, as it must be: ") and CONTRACT.search(rest)
                    good, bad = good + bool(by_contract), bad + (not by_contract)
                    if not by_contract:
                        print(f"{said[1]}: {rest}", flush=True)
                if seen != counts[name]:
                    bad += 1
                    print(f"{name}: {counts[name]} wrong bodies, but {seen} were tried; the end of what rt said:", flush=True)
                    print("\n".join(text.splitlines()[-5:]), flush=True)
    print(f"{good} refused by a contract, {bad} otherwise")
    return 1 if bad else 0


if __name__ == "__main__":
    os.environ.pop("RT_ALLOW_C", None)
    sys.exit(main())
