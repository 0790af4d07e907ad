#!/usr/bin/env python3
"""Lists the places in src/ that an older form of the language may have left, by kind.

    python3 tools/places.py [FOLDER]

FOLDER is a checkout of this repository (the current one if none is given). Tests are left out. Each kind is a
question for a reader: the list has every place where the older form can stand, and so places where it does not.
"""

import collections
import pathlib
import re
import sys

ROOT = pathlib.Path(sys.argv[1] if len(sys.argv) > 1 else ".")


def sources():
    for path in sorted((ROOT / "crates").glob("*/src/**/*.rt")):
        if path.name != "tests.rt":
            yield path.relative_to(ROOT / "crates"), path.read_text()


def lines(pattern):
    """The lines that fit a pattern, comments left out."""
    for path, text in sources():
        for number, line in enumerate(text.splitlines(), 1):
            if not line.lstrip().startswith("//") and re.search(pattern, line):
                yield f"{path}:{number}: {line.strip()}"


def functions():
    """Each function with a body: place, name, signature, clauses, body."""
    for path, text in sources():
        for m in re.finditer(r"^( *)(?:pub(?:\(\w+\))? )?(?:const )?fn (\w+)(.*?)(?: \{\n|\n\1\{\n)(.*?)^\1\}", text, re.M | re.S):
            head = re.split(r"^ *(?=requires|ensures)", m.group(3), flags=re.M)
            yield f"{path}:{m.group(2)}", m.group(2), head[0], head[1:], m.group(4)


def shape(body):
    """A body with its names and numbers left out."""
    body = re.sub(r"//.*", "", body)
    tokens = re.findall(r'"[^"]*"|\w+|[^\w\s]', body)
    words = {"let", "mut", "if", "else", "match", "for", "in", "while", "return", "as", "Ok", "Err", "Some", "None", "self"}
    return " ".join(t if t in words or not re.match(r'\w|"', t) else "x" for t in tokens)


def show(title, places):
    places = list(places)
    print(f"{title}: {len(places)}")
    for place in places:
        print("   ", place)


def groups(pairs, least):
    found = collections.defaultdict(list)
    for key, place in pairs:
        if place not in found[key]:
            found[key].append(place)
    return [(key, places) for key, places in found.items() if len(places) >= least]


def main():
    fns = list(functions())
    show("1a enums", lines(r"\benum [A-Z]"))
    show("1b results that are a number, a flag or a pair", lines(r"-> (u\d+|usize|bool|\([^)])"))
    names = groups(((name, place) for place, name, *_ in fns), 2)
    show("2a names of several functions", (f"{key}: {', '.join(places)}" for key, places in names))
    same = groups(((shape(body), place) for place, _, _, _, body in fns), 2)
    show("2b bodies of one shape", (f"{', '.join(places)}: {key}" for key, places in same))
    show("3 loops", lines(r"\bwhile\b|\bloop\b|\bfor .* in "))
    show("4 impls and conversions by hand", lines(r"^impl.* for |\bmatch (fs|\w+\.\w+\()|fn (number|words|from|told|done|span)\b"))
    clauses = ((re.sub(r"^(requires|ensures)( \w+)?|\.(now|old|new)\b|\s", "", c), place) for place, _, _, cs, _ in fns for c in cs)
    show("5a clauses of three functions or more", (f"{key}: {', '.join(places)}" for key, places in groups(clauses, 3)))
    travel = []
    for place, _, head, _, _ in fns:
        given = sorted(set(re.findall(r"(\w+: [^,)]+)", re.sub(r"^<[^(]*>|&('\w+ )?(mut )?", "", head.split("->")[0]))))
        travel += [(f"{a}, {b}", place) for i, a in enumerate(given) for b in given[i + 1 :]]
    show("5b parameters that travel together through three", (f"{key}: {', '.join(places)}" for key, places in groups(travel, 3)))
    show("6 slices and counts as fields", lines(r"^ +(pub(\(\w+\))? )?\w+: (&'\w+ (mut )?\[|usize|u32|u64)"))
    show("7 switches and tables of steps", lines(r"\bmatch \w+(\.as_str\(\))? \{|\bdyn\b|: fn\("))
    proofs = sorted((ROOT / "crates").glob("*/proofs/**/*.antt"))
    answers = [p for p in proofs if p.name in ("Answers.antt", "Invariants.antt")]
    count = lambda paths, pattern: sum(len(re.findall(pattern, p.read_text(), re.M)) for p in paths)
    print(f"8 answers: {count(answers, r'^(abbrev )?pub ')} in {len(answers)} files")
    others = [p for p in proofs if p not in answers and p.name != "Lib.antt"]
    print(f"8 lemmas and their words: {count(others, r'^ *(abbrev |unfoldable |pub )*(record |data )?[^ ]+ :')} in {len(others)} files")
    size = lambda paths: sum(len(p.read_text().splitlines()) for p in paths)
    print(f"8 lines of proofs: {size(proofs)}, of src without tests: {sum(len(t.splitlines()) for _, t in sources())}")


main()
