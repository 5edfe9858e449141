#!/usr/bin/env python3
"""Respells the repository's own definitions and lemmas: what is in lower camel case becomes snake case, files rewritten in place.

usage: python3 tools/respell.py    at the repository's top; then `rt fmt` in each crate

`countOf` becomes `count_of`, and `length-enterAll` becomes `length-enter_all`: a dash that joins two names stays, and so does a name
that begins with a capital. Files: crates/ (.antt, .rt, .edit), tests/edits, docs/*.md but not docs/changes, README.md, CONTRIBUTING.md.
Where a lemma, or a field, already has the name that a definition gets, OTHER says what it becomes.
Once no such word is left in crates/, the script changes nothing.
"""
import os
import re
import sys
from pathlib import Path

# lower camel case, and no name of ours
KEPT = {"kB"}

# camel words that get another name than their snake case
NAMED = {
    "getD": "get_or",  # in-getD and getD-of-map: the kit's getD is get_or, and that is what they speak of
}

# a name that a definition takes over: in the crates named, what bore it gets the other name
OTHER = [
    ("at_level", "at_level_lem", "near"),
    ("by_key", "by_key_lem", "model"),
    ("count_bits", "count_bits_lem", "edit local page store"),
    ("ended_at", "ended_at_lem", "model promises"),
    ("ended_by", "ended_by_lem", "model"),
    ("front_of", "front_of_lem", "model notes promises spans"),
    ("full_at", "full_at_lem", "notes"),
    ("go_on", "go_on_lem", "console model"),
    ("head_bytes", "head_bytes_lem", "page"),
    ("header_of", "header_of_lem", "release store turn"),
    ("in_order", "in_order_lem", "differ model plain promises"),
    ("is_free", "stays_free", "model"),  # a field of Usable in model/proofs/needs/FreePages
    ("kept_by", "kept_by_lem", "auditor"),
    ("keys_on", "keys_on_lem", "notes"),
    ("number_by", "number_by_lem", "promises"),
    ("passes_at", "passes_at_lem", "model promises spans"),
    ("read_back", "read_back_lem", "lines plain"),
    ("right_is", "right_is_lem", "local"),
    ("zero_bits", "zero_bits_lem", "bits"),
    ("from_First", "from_first", "model"),  # a module's parameter in model/proofs/turning/Converted
]

CAMEL = re.compile(r"(?<![A-Za-z0-9_'])[a-z][a-z0-9]*(?:[A-Z][a-z0-9]*)+(?![A-Za-z0-9_])")
WORD = re.compile(r"[A-Za-z_][A-Za-z0-9_']*")


def snake(word):
    return NAMED.get(word) or re.sub(r"[A-Z]", lambda found: "_" + found.group().lower(), word)


def crates(*ends):
    for folder, inner, names in os.walk("crates"):
        inner[:] = sorted(name for name in inner if name not in ("out", "target"))
        yield from (Path(folder, name) for name in sorted(names) if name.endswith(ends))


def rewrite(file, turn):
    said = file.read_text(encoding="utf-8")
    new = turn(said)
    if new != said:
        file.write_text(new, encoding="utf-8")
    return new != said


def others(file):
    """What turns the names of OTHER in a file of crates/NAME; a path's own part, as in `proofs.in_order.Proof`, stays."""
    rows = {old: new for old, new, where in OTHER if file.parts[1] in where.split()}
    if not rows:
        return lambda said: said
    names = re.compile(r"(?<![\w'-])(?:%s)(?![\w'-]|\.\w)" % "|".join(map(re.escape, rows)))
    return lambda said: names.sub(lambda found: rows[found.group()], said)


def main():
    if not Path("crates.txt").is_file():
        sys.exit("respell: run it at the repository's top")
    ours, known = set(), set()
    for file in crates(".antt", ".rt"):
        said = file.read_text(encoding="utf-8")
        ours |= set(CAMEL.findall(said)) - KEPT
        known |= set(WORD.findall(said))
    if not ours:
        sys.exit("respell: no word in lower camel case is left in crates/")

    def turned(said):
        return CAMEL.sub(lambda found: snake(found.group()) if found.group() in ours else found.group(), said)

    # texts that cite the tree, some by names that it had before port.py gave them in snake case
    def cited(said):
        return CAMEL.sub(
            lambda found: snake(found.group()) if found.group() not in KEPT and (found.group() in ours or snake(found.group()) in known) else found.group(),
            said,
        )

    count = 0
    for file in crates(".antt", ".rt"):
        other = others(file) if file.suffix == ".antt" else lambda said: said
        count += rewrite(file, lambda said: turned(other(said)))
    texts = [*crates(".edit"), *sorted(Path("tests/edits").rglob("*.edit")), *sorted(Path("docs").glob("*.md")), Path("README.md"), Path("CONTRIBUTING.md")]
    for file in texts:
        count += rewrite(file, cited)
    print(f"respell: {len(ours)} words, {count} files")


main()
