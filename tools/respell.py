#!/usr/bin/env python3
"""Brings this repository's own words to today's spelling: snake case, and a dash only where two names are joined.

usage: tools/respell.py [--show]        at the top, once, right after the kit's port.py

It turns whole words alone: the definitions, lemmas, fields and variables of crates/*/specs and crates/*/proofs wherever .rt and .antt files
name them, the same words in code spans of README.md and docs/, and the antt text of must-fail/*.edit, whose other spellings (projections,
primes, std's words) it turns too. --show prints the table and writes nothing.
Names that Rattle makes (steps, goals) and functions of src/ stay.
"""

import glob
import os
import re
import sys

WORD = r"[^\s(){}.;,@\"«»]+"
# What a dash joins: words that are names by themselves.
NAMES = set(
    "length get_or take drop append table set put sum lt le and or true false mul add zero bytes ring but_last excluding words_of "
    "quarter_at xors zeros registers final compress block blake2b rotr column index place share square part last chain permutation "
    "secret salt password".split()
)
# What port.py made of words of this repository that the library spells in snake case.
PORTED = {
    "getD": "get_or",
    "highHalf": "high_half",
    "lowHalf": "low_half",
    "inMemory": "in_memory",
    "areaStart": "area_start",
    "storedBlock": "stored_block",
    "wordsOf": "words_of",
    "wordAt": "word_at",
    "wordBytes": "word_bytes",
    "numberAt": "number_at",
    "tagOf": "tag_of",
    "rowsFrom": "rows_from",
}
# Lemmas that port.py gave the name that the definition beside them gets here, and where: a lemma of its function's name ends in _lem.
LEMMAS = {
    "crates/figures": "chain_by columns_of joined_by round_by turn_by xors_by".split(),
    "crates/position/proofs/Columns.antt": ["in_lane"],
    "crates/job/proofs": ["laid_out"],
}
DECLARED = re.compile(rf"^(\s*)((?:abbrev |unfoldable |pub |record |data )*)({WORD}(?: {WORD})*) : (.*)$", re.M)
BOUND = re.compile(rf"[({{]({WORD}(?: {WORD})*) : ")
LET = re.compile(rf"\blet ({WORD}(?: {WORD})*) (?::|=) ")
MADE = re.compile(r"^(tie|goal|ties)\.|\bstatement\b")


def snake(word):
    return re.sub(r"(?<=[a-z0-9])([A-Z])", lambda m: "_" + m.group(1).lower(), word)


def dashes(word):
    parts = [snake(p) if p[:1].islower() else p for p in word.split("-")]
    parts = ["get_or" if p == "get_d" else p for p in parts]
    said = parts[0]
    for before, after in zip(parts, parts[1:]):
        said += ("-" if before in NAMES and after in NAMES else "_") + after
    return said


def antt():
    return sorted(glob.glob("crates/*/specs/*.antt") + glob.glob("crates/*/proofs/**/*.antt", recursive=True))


def read(path):
    with open(path, encoding="utf-8") as f:
        return f.read()


def table():
    """Old and new spelling of each word that these files declare."""
    said, made = set(), set()
    for path in antt():
        text = read(path)
        for m in DECLARED.finditer(text):
            (made if MADE.search(m.group(4)) else said).update(m.group(3).split(" "))
        for form in (BOUND, LET):
            for m in form.finditer(text):
                said.update(m.group(1).split(" "))
    dashed = {word for word in said - made if "-" in word.strip("-") and not word.startswith("-")}
    camel = {word for word in said - made - dashed if word[:1].islower() and re.search(r"[a-z0-9][A-Z]", word)}
    rows = {word: snake(word) for word in camel}
    taken = set(rows.values()) | (said - dashed - camel)
    for word in dashed:
        spelled = dashes(word)
        rows[word] = spelled + "_lem" if spelled in taken else spelled
    return {old: new for old, new in rows.items() if old != new}


def words(rows):
    spelled = "|".join(re.escape(w) for w in sorted(rows, key=len, reverse=True))
    return re.compile(rf"(?<![^\s(){{}}.;,@\"«»`])({spelled})(?![^\s(){{}}.;,@\"«»`])")


def lemmas(path, text):
    for place, these in LEMMAS.items():
        if path.startswith(place):
            text = re.sub(rf"(?<![^\s(){{}};,@\"«»])({'|'.join(these)})(?![^\s(){{}}.;,@\"«»])(?!\.)", r"\1_lem", text)
    return text


def turn_edit(path, rows):
    """An edit of antt text says what today's text says."""
    both = rows | PORTED
    form = words(both)
    lines, file = [], ""
    for line in read(path).split("\n"):
        if line.startswith("file: "):
            file = line[6:]
        if line.startswith(("old: ", "new: ")) and file.endswith(".antt"):
            line = line.replace("′", "'")
            line = re.sub(r"\((\w+) ((?:\.\w+ ?)+)\)", lambda m: m.group(1) + m.group(2).replace(" ", ""), line)
            line = re.sub(r"(?<=\w) (?=\.\w)", "", line)
            line = form.sub(lambda m: both[m.group(1)], line)
        elif line.startswith("#"):
            line = form.sub(lambda m: both[m.group(1)], line)
        lines.append(line)
    return "\n".join(lines)


def main():
    rows = table()
    if "--show" in sys.argv:
        for old in sorted(rows):
            print(f"{old}\t{rows[old]}")
        return
    form = words(rows)
    places = antt() + sorted(glob.glob("crates/*/src/**/*.rt", recursive=True))
    texts = {p: form.sub(lambda m: rows[m.group(1)], lemmas(p, read(p)) if p.endswith(".antt") else read(p)) for p in places}
    both = rows | PORTED
    spans = words(both)
    for path in ["README.md"] + sorted(glob.glob("docs/*.md")):
        texts[path] = re.sub(r"`[^`\n]+`", lambda m: spans.sub(lambda w: both[w.group(1)], m.group(0)), read(path))
    for path in sorted(glob.glob("crates/*/must-fail/*.edit")):
        texts[path] = turn_edit(path, rows)
    for path, text in texts.items():
        if text != read(path):
            with open(path, "w", encoding="utf-8") as f:
                f.write(text)


main()
