#!/usr/bin/env python3
"""Which functions of a crate are dear to prove: function_sizes.py CRATE [MOST], after a check of the crate.

A check keeps in crates/CRATE/out/incremental, of each function, the table of its states (a line for each step of the code
and in it an entry for each local), what ties the table to the code, and the proof. Their sizes, printed in kilobytes and
greatest table first, do not hang on what else the machine does. A megabyte of the table costs some two seconds of a
processor, with the rest of its function.
"""
import pathlib
import re
import sys

PART = re.compile(r"Rattle-\w+?-proofs\.(.*)\.(Lts|Tie|Proof)\.oantt")


def sizes(crate):
    """The size of each part of each function."""
    found = {}
    for file in pathlib.Path("crates", crate, "out", "incremental").glob("*/*.oantt"):
        if part := PART.fullmatch(file.name):
            found.setdefault(part[1], {})[part[2]] = file.stat().st_size // 1000
    return {name: parts for name, parts in found.items() if "Lts" in parts}


def main():
    found = sizes(sys.argv[1])
    most = int(sys.argv[2]) if len(sys.argv) > 2 else len(found)
    print("  table    tie  proof  function")
    for name, parts in sorted(found.items(), key=lambda it: -it[1]["Lts"])[:most]:
        print(f"{parts['Lts']:7} {parts.get('Tie', 0):6} {parts.get('Proof', 0):6}  {name}")
    total = [sum(parts.get(it, 0) for parts in found.values()) for it in ("Lts", "Tie", "Proof")]
    print(f"{total[0]:7} {total[1]:6} {total[2]:6}  all {len(found)} functions")


main()
