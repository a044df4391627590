#!/usr/bin/env python3
"""Lists the places in crates/*/src that read like an older language, by the points of docs/DESIGN-PASS.md.

    tools/places.py [FOLDER]

A row is a place to look at, not a verdict: docs/DESIGN-PASS.md says of each what it became or why it stays.
"""
import collections
import pathlib
import re
import subprocess
import sys
import tempfile

FOLDER = pathlib.Path(sys.argv[1] if len(sys.argv) > 1 else ".")
SOURCES = sorted(FOLDER.glob("crates/*/src/**/*.rt"))
TEXTS = {s.relative_to(FOLDER / "crates").as_posix(): s.read_text() for s in SOURCES}


def lines(pattern, skip=None):
    """Each line of code that matches, with its place."""
    for name, text in TEXTS.items():
        for number, line in enumerate(text.splitlines(), 1):
            code = line.split("//")[0]
            if re.search(pattern, code) and not (skip and re.search(skip, code)):
                yield f"{name}:{number}", line.strip()


def functions():
    """Each function: its crate, name, parameters and contract."""
    for name, text in TEXTS.items():
        for m in re.finditer(r"fn (\w+)[^{;(]*\(([^)]*)\)(.*?)\n\s*\{", text, re.S):
            yield name.split("/")[0], m.group(1), m.group(2), m.group(3)


def show(title, rows):
    rows = list(rows)
    print(f"\n== {title}: {len(rows)}")
    for row in rows:
        print("  ", *row)
    return len(rows)


def thrice(pairs):
    """The keys that three functions or more have."""
    by = collections.defaultdict(set)
    for key, function in pairs:
        by[key].add(function)
    return sorted(((len(v), k, ",".join(sorted({c for c, _ in v}))) for k, v in by.items() if len(v) > 2), reverse=True)


def facts():
    for crate, name, _, contract in functions():
        for m in re.finditer(r"requires\*?\s*(?:\w+\s*)?\{([^\n]*)\}\s*$", contract, re.M):
            yield m.group(1).strip(), (crate, name)


def companions():
    for crate, name, parameters, _ in functions():
        ps = [re.sub(r"^(mut )", "", p.strip()) for p in parameters.replace("\n", " ").split(",") if ":" in p]
        for i, p in enumerate(ps):
            for q in ps[i + 1:]:
                yield " | ".join(sorted((p, q))), (crate, name)


def counted_buffers():
    """Structs with an array and a count beside it, and functions that take a buffer and how much of it is used."""
    for name, text in TEXTS.items():
        for m in re.finditer(r"struct (\w+)[^{;]*\{(.*?)\n\}", text, re.S):
            fields = m.group(2)
            arrays = re.findall(r"(\w+): (?:\[[^\];]+; \d+\]|&'a (?:mut )?\[\w+\])", fields)
            counts = re.findall(r"(\w+): (?:usize|u64)\b", fields)
            if arrays and counts:
                yield name, m.group(1), "arrays " + " ".join(arrays), "counts " + " ".join(counts)
    for crate, name, parameters, _ in functions():
        if re.search(r"\bused: (&mut )?usize", parameters):
            yield crate, name, "used"


def twins():
    """Pairs of places alike in six lines or more, by the command duplicates, which reads no .rt: so on copies."""
    with tempfile.TemporaryDirectory() as copy:
        for name, text in TEXTS.items():
            to = pathlib.Path(copy) / name.replace(".rt", ".rs")
            to.parent.mkdir(parents=True, exist_ok=True)
            to.write_text(text)
        out = subprocess.run(["duplicates", "--most", "200", "--seconds", "120", "--repo", copy], capture_output=True, text=True).stdout
    for row in out.splitlines():
        if re.match(r"D\d+ ", row) and "boilerplate" not in row:
            yield (re.sub(r"^D\d+ ", "", row),)


def switches():
    """Functions that choose by a parameter of an enum of the repository what to do."""
    enums = set(re.findall(r"enum (\w+)", "\n".join(TEXTS.values())))
    for crate, name, parameters, _ in functions():
        body = re.search(rf"fn {name}\b.*?\n\s*\{{\n(.*?)\n    ?\}}", "\n".join(t for n, t in TEXTS.items() if n.startswith(crate + "/")), re.S)
        for p, t in re.findall(r"(\w+): (\w+)", parameters):
            if t in enums and body and re.search(rf"match (\*|\()?{p}\b", body.group(1)):
                yield crate, name, f"{p}: {t}"


def main():
    show("1 numbers that say nothing", lines(r"fn \w+(<[^>]*>)?\(\) -> u8"))
    show("1 numbers for refusals and sentinels", lines(r"fn number\(self\)|^\s+(price|rate): u32,"))
    show("1 enums with a refusal among their successes", ((n, e) for n, t in TEXTS.items() for e in re.findall(r"enum (\w+)[^}]*Refused\(", t)))
    show("1 a flag beside a value", lines(r"^\s+(pub )?\w+: bool,", r"&self"))
    show("2 pairs alike in six lines or more", twins())
    show("3 loops that count an index", lines(r"for \w+ in 0\.\.|^\s*while (?!let)"))
    show("3 loops that ask for the next by hand", lines(r"while let"))
    show("4 by hand: equality, order, copying, conversion, printing", lines(r"fn (is_same|are_same|eq|cmp|clone|message|cents|kind_name|currency|residency|ticker|month|tell_\w+|put_\w+|from_\w+|to_\w+|no_\w+|blank)\b"))
    show("5 facts that three functions or more require", thrice(facts()))
    show("5 parameters that travel together through three functions or more", thrice(companions()))
    show("6 a buffer with a count beside it", counted_buffers())
    show("7 switches on an enum handed in", switches())
    for kind in ("Answers", "Invariants", "Proof"):
        found = list(FOLDER.glob(f"crates/*/proofs/**/{kind}.antt"))
        print(f"\n== 8 files {kind}.antt: {len(found)}, {sum(len(f.read_text().splitlines()) for f in found)} lines")
    proofs = list(FOLDER.glob("crates/*/proofs/**/*.antt"))
    print(f"== 8 all of proofs/: {len(proofs)} files, {sum(len(f.read_text().splitlines()) for f in proofs)} lines")


main()
