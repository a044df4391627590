#!/usr/bin/env python3
"""Compares the library's calls, as the probe makes them, with the second calculation, line by line.

    second/library.py PROGRAM              the stored seeds: always the same scripts
    second/library.py PROGRAM --fresh N    N scripts of fresh seeds
    second/library.py PROGRAM SEED..       these seeds
"""

import random
import subprocess
import sys
import time

from calculation import Book, Refused
from scripts import KINDS, make

STORED = range(150)

# every refusal of a book's calls
REACHABLE = set(range(1, 24))

# how many numbers each call takes, behind its name
NUMBERS = {"trade": 4, "quote": 2, "notify": 2, "designate": 0, "mark": 3, "expire": 1}

MOST_ROWS = 80
UNTOUCHED = (-7, -9)


class Unread(Exception):
    """A line that is no call."""


def need(met):
    if not met:
        raise Unread


def number(word):
    need(word.isascii() and word.isdigit() and int(word) < 1 << 64)
    return int(word)


def read_build(words):
    need(len(words) == 7 and words[0] in KINDS and words[2] in ("real", "dollar"))
    size, tick, last, opens, closes = (number(word) for word in words[1:2] + words[3:])
    return (size, words[2], tick, words[0]), last, opens, closes


def read_register(words):
    need(len(words) == 4 and [len(word.encode()) for word in words[:3]] == [8, 3, 3] and words[3] in ("R", "N"))
    return "".join(words[:3]).encode(), words[3]


def read(line):
    """The name of a call and what it is given."""
    name, *words = line.split(" ")
    if name == "build":
        return name, read_build(words)
    if name == "register":
        return name, read_register(words)
    need(name in NUMBERS and len(words) == NUMBERS[name])
    given = [number(word) for word in words]
    need(name not in ("mark", "expire") or given[-1] <= MOST_ROWS)
    return name, given


def is_terms(size, currency, tick, ending):
    """Terms are made of a size of 1 to 100 and a tick of a cent or more, of 32 bits."""
    return 1 <= size <= 100 and 1 <= tick < 1 << 32


def answer(book, name, given):
    """What an accepted call prints behind its ok, and the rows that it pays."""
    if name == "register":
        return (book.register(*given),), []
    if name == "designate":
        return book.designate(), []
    if name in ("mark", "expire"):
        _, rows, sums = getattr(book, name)(*given)
        book.assert_laws()
        return sums, rows
    getattr(book, name)(*given)
    return (), []


class Second:
    """The second calculation, driven by a script: what each line has to print."""

    def __init__(self, seen):
        self.book, self.seen = None, seen

    def refused(self, fault):
        self.seen[fault.number] = self.seen.get(fault.number, 0) + 1
        return "no %d" % fault.number

    def build(self, terms, last, opens, closes):
        if not is_terms(*terms):
            return ["terms"]
        try:
            self.book = Book(terms, last, opens, closes)
        except Refused as fault:
            return [self.refused(fault)]
        return ["ok"]

    def call(self, name, given):
        if self.book is None:
            return ["no book"]
        try:
            said, rows = answer(self.book, name, given)
            lines = [" ".join(["ok"] + [str(n) for n in said])]
        except Refused as fault:
            lines, rows = [self.refused(fault)], []
        if name in ("mark", "expire"):
            rows = rows + [UNTOUCHED] * (given[-1] - len(rows))
            lines.append(" ".join(["page"] + ["%d,%d" % row for row in rows]))
        return lines

    def line(self, text):
        try:
            name, given = read(text)
        except Unread:
            return ["?"]
        return self.build(*given) if name == "build" else self.call(name, given)


def compare(program, seed, seen, calls):
    script = make(seed)
    calls.append(len(script))
    ran = subprocess.run([program], input=("\n".join(script) + "\n").encode(), capture_output=True)
    if ran.returncode or ran.stderr:
        return "seed %d: status %d, %r" % (seed, ran.returncode, ran.stderr)
    printed, at, second = ran.stdout.decode().split("\n"), 0, Second(seen)
    for i, text in enumerate(script, 1):
        try:
            expected = second.line(text)
        except AssertionError:
            return "seed %d, call %d: %s\n  the second calculation breaks a law of its own" % (seed, i, text)
        for line in expected:
            if at >= len(printed) or printed[at] != line:
                got = printed[at] if at < len(printed) else "nothing"
                return "seed %d, call %d: %s\n  program: %s\n  second:  %s" % (seed, i, text, got, line)
            at += 1
    if printed[at:] != [""]:
        return "seed %d: the program prints on with %r" % (seed, printed[at:][:3])
    return None


def main(args):
    program, rest = args[0], args[1:]
    if rest[:1] == ["--fresh"]:
        seeds = [random.SystemRandom().randrange(1000, 1 << 40) for _ in range(int(rest[1]))]
    else:
        seeds = [int(s) for s in rest] or STORED
    seen, calls, began, differ = {}, [], time.time(), 0
    for seed in seeds:
        fault = compare(program, seed, seen, calls)
        if fault:
            differ += 1
            print(fault)
    missing = REACHABLE - set(seen) if seeds is STORED else set()
    if missing:
        print("no call was refused with", sorted(missing))
    print("second calculation of the library: %d scripts, %d calls, %d differ, %d refusals of %d numbers, %.0f s" % (len(seeds), sum(calls), differ, sum(seen.values()), len(seen), time.time() - began))
    return 1 if differ or missing else 0


if __name__ == "__main__":
    sys.exit(main(sys.argv[1:]))
