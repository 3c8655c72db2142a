#!/usr/bin/env python3
"""Runs a built bench some times on these lines of its standard input, and prints of each number that it writes to standard
error the least, the middle one and the most.

    tools/repeat_bench.py crates/store_bench/out/store_bench 9 'commits 1000' 'batches 1000' 'singles 1'

Numbers are told apart by the words before them and by the line above that names no time and no ratio.
"""
import re
import subprocess
import sys

TIME = re.compile(r"^(.*): (\d+(?:\.\d+)?)( ns)?$")


def numbers(text):
    """The numbers of a run, each with the words that tell it apart."""
    heading = ""
    for line in text.splitlines():
        found = TIME.match(line)
        if found and (found.group(3) or line.startswith("ratio, ")):
            yield f"{heading} | {found.group(1)}", float(found.group(2)), found.group(3) or ""
        elif ": " in line:
            name, rest = line.split(": ", 1)
            for place, number in enumerate(re.findall(r"\d+", rest)):
                yield f"{name} | number {place + 1}", float(number), ""
        else:
            heading = line


def main():
    program, runs, lines = sys.argv[1], int(sys.argv[2]), sys.argv[3:]
    seen = {}
    for _ in range(runs):
        done = subprocess.run([program], input="\n".join(lines) + "\n", capture_output=True, text=True, check=True)
        for name, number, unit in numbers(done.stderr):
            seen.setdefault(name, ([], unit))[0].append(number)
    for name, (found, unit) in seen.items():
        found.sort()
        least, middle, most = found[0], found[len(found) // 2], found[-1]
        print(f"{name}: {least:.10g}, {middle:.10g}, {most:.10g}{unit} ({len(found)} runs)")


if __name__ == "__main__":
    main()
