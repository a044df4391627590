#!/usr/bin/env python3
"""Compares the program with the second calculation, line by line.

    second/compare.py PROGRAM              the stored seeds: always the same files
    second/compare.py PROGRAM --fresh N    N files of fresh seeds
    second/compare.py PROGRAM SEED..       these seeds
"""

import random
import subprocess
import sys
import time

from files import make
from report import report

STORED = range(120)

# every refusal that a file can reach: 21 asks for page rows, of which the program always has enough
REACHABLE = set(range(1, 28)) - {21}


def compare(program, seed, seen):
    data = make(seed)
    ran = subprocess.run([program], input=data, capture_output=True)
    printed, expected = ran.stdout.decode("ascii").split("\n"), report(data, seen)
    if ran.returncode or ran.stderr:
        return "seed %d: status %d, %r" % (seed, ran.returncode, ran.stderr)
    for i, (record, line) in enumerate(expected):
        if i >= len(printed) or printed[i] != line:
            return "seed %d, record %d\n  program: %s\n  second:  %s" % (seed, record, printed[i] if i < len(printed) else "nothing", line)
    if printed[len(expected) :] != [""]:
        return "seed %d: the program prints on with %r" % (seed, printed[len(expected) :][:3])
    return None


def main(args):
    program, rest = args[0], args[1:]
    if rest[:1] == ["--fresh"]:
        seeds = [random.SystemRandom().randrange(10, 1 << 40) for _ in range(int(rest[1]))]
    else:
        seeds = [int(s) for s in rest] or STORED
    seen, began, differ = {}, time.time(), 0
    for seed in seeds:
        fault = compare(program, seed, seen)
        if fault:
            differ += 1
            print(fault)
    missing = REACHABLE - set(seen) if seeds is STORED else set()
    if missing:
        print("no file was refused with", sorted(missing))
    print("second calculation: %d files, %d differ, %d refusals of %d numbers, %.0f s" % (len(seeds), differ, sum(seen.values()), len(seen), time.time() - began))
    return 1 if differ or missing else 0


if __name__ == "__main__":
    sys.exit(main(sys.argv[1:]))
