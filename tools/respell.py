#!/usr/bin/env python3
"""Respells the repository's own definitions and lemmas as Rattle's guides ask: words in snake case, facts in camel case.

usage: python3 tools/respell.py        at the top of the repository, once, after the kit's port.py

It goes over the specs/, proofs/ and src/ of every crate and changes whole names of the tables below, nothing else. A dash
stays where it joins the names of two functions (`length-written`). It stops, and writes nothing, where two names would
fall together.
"""

import os
import re
import sys

# facts: camel case
FACTS = """
Add-applies All-answered Each-of Every-run Files-tell Frame-count Length-applies No-records None-applies Numbers-tell
Packet-length Read-applies Reads-back Record-length Records-added Ring-cancels Ring-releases Ring-submits Ring-withdraws
Size-for Takes-into Write-applies
""".split()

# definitions, lemmas and local names: snake case
WORDS = """
added-records added-whole adds-whole agrees-come agrees-left agrees-new agrees-same agrees-step agrees-still all-below
answer-of answers-weaker area-long back-written batch-end cause-number cause-numbered cause-words chained-below chained-le
consumer-at continues-all continues-more count-back cut-long cut-records cut-same draft-b ends-within entry-told every-run
exact-released file-count file-end file-long file-pair files-tell first-is frame-named frame-size fresh-lists
fresh-numbers front-written gapless-from gapless-more held-fit held-records inside-count inside-mark inside-room laid-all
laid-back length-of length-told listed-file listed-fit listed-long longest-record marks-b new-marks new-ring no-p no-q
none-taken numbers-tell offset-of offset-told ok-a one-reserved one-taken packed-below packed-count packed-pair
packed-part pairs-more part-sized part-told part-within parts-back parts-joined parts-kept parts-sized peek-count
place-fits place-named producer-at queue-peeked record-at records-back records-fit records-of refusal-words
reserve-count right-exact right-more rows-table same-records same-refusal same-smallest same-state served-long served-room
session-of shortest-record size-masked size-some size-whole slot-past slots-b sound-at sound-beside sound-consumed
sound-new sound-of sound-peeked sound-produced sound-reserved sound-same sound-step span-set-other span-split state-of
table-append table-within taken-told three-writes throughout-push told-split trace-exact trace-packable waiting-entry
waits-on when-equal when-weaker with-draft with-left with-peeked with-reserved word-at-length word-at-offset
word-put written-file written-more written-parts wrong-end wrong-head wrong-pair yes-p
""".split()

# names that go another way
OTHERS = {
    "Not-a-trace": "FoundNoTrace",  # NotATrace is a refusal
    "getD-span": "get_or-span",  # getD is get_or now
    "getD-turned": "get_or-turned",
    "length-draft-a": "length_draft_a",
    "length-low": "length-low_first",
    "length-held": "length-held_records",
    "length-parts": "length-parts_in",
    "length-records": "length-records_of",
    "reads-back": "reads_back_of",  # reads_back is a clause
}

START, END = r"(?<![^\s(){};,.\"`|\[\]⌜⌝←])", r"(?![^\s(){};,.\"`|\[\]⌜⌝])"


def table():
    names = {n: "".join(part[0].upper() + part[1:] for part in n.split("-")) for n in FACTS}
    names.update((n, n.replace("-", "_")) for n in WORDS)
    names.update(OTHERS)
    return names


def texts():
    for crate in sorted(os.listdir("crates")):
        for kind in ("specs", "proofs", "src"):
            for folder, dirs, files in os.walk(os.path.join("crates", crate, kind)):
                dirs.sort()
                for file in sorted(files):
                    if file.endswith((".antt", ".rt")):
                        yield os.path.join(folder, file)


def main():
    if not os.path.isfile("crates.txt"):
        sys.exit("respell: run it at the top of the repository")
    names = table()
    held = {path: open(path, encoding="utf-8").read() for path in texts()}
    words = set()
    for text in held.values():
        words.update(re.split(r"[\s(){};,.\"`|\[\]⌜⌝←]+", text))
    falls = [(old, new) for old, new in names.items() if new in words and old in words]
    falls += [(old, new) for old, new in names.items() if list(names.values()).count(new) > 1]
    if falls:
        sys.exit(f"respell: these would fall together: {falls}")
    pattern = re.compile(START + "(" + "|".join(sorted(map(re.escape, names), key=len, reverse=True)) + ")" + END)
    for path, text in held.items():
        new = pattern.sub(lambda m: names[m.group(1)], text)
        if new != text:
            with open(path, "w", encoding="utf-8") as file:
                file.write(new)


if __name__ == "__main__":
    main()
