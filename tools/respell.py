#!/usr/bin/env python3
"""Respells the repository's own definitions and lemmas: words in snake case, types in camel case.

    tools/respell.py [--list]    at the top of a checkout that port.py has just turned; --list only prints the names

A name of specs/ or proofs/ that is written with dashes gets underscores, `payment_of` for `payment-of`; one that begins
with a capital is a type and loses its dashes, `PaymentLaw` for `Payment-law`. Names that Rattle makes keep their dashes:
goals, and the steps of a function that a proof cites. Comments keep theirs. Code has no names with
dashes; a string that has one of these words is changed too, and is put back by hand.
"""

import os
import re
import sys

CRATES = sorted(os.listdir("crates"))
OWN = re.compile(r"Rattle\.(?:" + "|".join(CRATES) + r")\.")

NAME = r"[^\W\d][\w'₀-₉]*(?:-[\w'₀-₉]+)+"
TOKEN = re.compile(r"(?<![\w'₀-₉-])" + NAME + r"(?![\w'₀-₉-])")
# what a proof is made of: these files answer goals, whose names Rattle makes
ANSWERS = {"Answers.antt", "Choices.antt", "Invariants.antt", "Proof.antt"}
MADE = re.compile(r"^\s*(?:abbrev )?(?:pub )?(\S+) : (?:goal|given|need)\.")
SIGNED = re.compile(r"^\s*(?:(?:pub|abbrev|unfoldable|opaque|private)\s+)*((?:" + NAME + r"|[\w']+)(?:\s+(?:" + NAME + r"|[\w']+))*) : ")
HEAD = re.compile(r"^\s*(?:pub\s+)?(?:record|data|module)\s+(" + NAME + r")")
HEAD_OF_RECORD = re.compile(r"^(?:pub\s+)?record\s")
ALIAS = re.compile(r" as (" + NAME + r")")
USE = re.compile(r"^\s*(?:pub |ghost )*use ([\w.]+)\.\{(.*)\}")
LET = re.compile(r"\blet (" + NAME + r")\b")
BOUND = re.compile(r"λ ([^.]*)\.")
PARAMETERS = re.compile(r"[({]((?:" + NAME + r"|[\w'₀-₉]+)(?:\s+(?:" + NAME + r"|[\w'₀-₉]+))*) : ")


def files(top):
    for folder, dirs, names in os.walk(os.path.join(top, "crates")):
        dirs[:] = sorted(d for d in dirs if d not in ("out", "target"))
        for name in sorted(names):
            if name.endswith((".antt", ".rt", ".edit")):
                yield os.path.join(folder, name)


def read(path):
    with open(path, encoding="utf-8") as f:
        return f.read()


def code(line, mark):
    """A line without its comment."""
    at = line.find(mark)
    return line if at < 0 else line[:at]


def declared(path):
    """The dashed names that a file of specs/ or proofs/ gives a meaning to."""
    found = set()
    answers = os.path.basename(path) in ANSWERS
    for line in read(path).split("\n"):
        line = code(line, "-- ") if not line.startswith("--") else ""
        if line.startswith("use ") or line.startswith("pub use "):
            continue
        found |= set(LET.findall(line))
        for binder in BOUND.findall(line) + PARAMETERS.findall(line):
            found |= set(TOKEN.findall(binder))
        head = HEAD.match(line)
        if head:
            found.add(head.group(1))
        signed = SIGNED.match(line)
        if signed and not (answers and MADE.match(line)):
            found |= set(TOKEN.findall(signed.group(1)))
        # the arguments of a definition by clauses
        if not answers and " = " in line:
            found |= set(TOKEN.findall(line.split(" = ")[0].split(" : ")[0]))
    return found


def fields(path):
    """The dashed names of the fields of a file's records, which are cited after a dot."""
    found, inside = set(), False
    for line in read(path).split("\n"):
        if HEAD_OF_RECORD.match(line):
            inside = True
        elif line and not line[0].isspace() and not line.startswith("--"):
            inside = False
        elif inside:
            signed = SIGNED.match(code(line, "-- "))
            if signed:
                found |= set(TOKEN.findall(signed.group(1)))
    return found


def foreign(path):
    """The names that a file imports from the library."""
    found = set()
    for line in read(path).split("\n"):
        m = USE.match(line)
        if m and not OWN.match(m.group(1)):
            found |= set(TOKEN.findall(ALIAS.sub("", m.group(2))))
    return found


def respelled(name):
    if name[0].isupper():
        return "".join(word[:1].upper() + word[1:] for word in name.split("-"))
    return name.replace("-", "_")


def put(m, line, names, after_dot):
    cited = line[m.start() - 1 : m.start()] == "." and line[m.start() - 2 : m.start() - 1] not in (" ", "")
    if cited and m.group(0) not in after_dot:
        return m.group(0)
    return names.get(m.group(0), m.group(0))


def turn(text, names, after_dot, path):
    """A text with the names respelled, where they are words of specs and proofs."""
    mark = "-- " if path.endswith(".antt") else "// "
    out = []
    for line in text.split("\n"):
        if line.lstrip().startswith(mark.strip()):
            out.append(line)
            continue
        if path.endswith(".antt") and MADE.match(line):
            out.append(line)
            continue
        body = code(line, mark)
        out.append(TOKEN.sub(lambda m: put(m, body, names, after_dot), body) + line[len(body) :])
    return "\n".join(out)


def main():
    top = os.getcwd()
    paths = list(files(top))
    names, after_dot, library, aliases = set(), set(), set(), set()
    for path in paths:
        if path.endswith(".antt"):
            names |= declared(path)
            after_dot |= fields(path)
        if path.endswith((".antt", ".rt")):
            library |= foreign(path)
            aliases |= set(ALIAS.findall(read(path)))
    names = names - library | aliases
    # names that Rattle makes: goals that the answers sign
    made = set()
    for path in paths:
        if os.path.basename(path) in ANSWERS:
            for line in read(path).split("\n"):
                m = MADE.match(line)
                if m:
                    made.add(m.group(1))
    table = {n: respelled(n) for n in sorted(names - made)}
    taken = {}
    for old, new in table.items():
        taken.setdefault(new, []).append(old)
    for new, olds in taken.items():
        if len(olds) > 1:
            print("fall together:", new, olds)
    word = re.compile(r"(?<![\w'-])[^\W\d][\w']*(?![\w'-])")
    for path in paths:
        if path.endswith(".antt"):
            there = set(word.findall(read(path)))
            here = set(TOKEN.findall(read(path)))
            for old in sorted(here & set(table)):
                if table[old] in there:
                    print("stands already:", table[old], os.path.relpath(path, top))
    if "--list" in sys.argv:
        for old, new in table.items():
            print(old, new)
        return
    changed = 0
    for path in paths:
        before = read(path)
        after = turn(before, table, after_dot, path)
        if after != before:
            changed += 1
            with open(path, "w", encoding="utf-8") as f:
                f.write(after)
    print(len(table), "names respelled in", changed, "files")


if __name__ == "__main__":
    main()
