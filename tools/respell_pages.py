#!/usr/bin/env python3
"""Brings the names between ticks in pages, comments and the first lines of must-fail edits to today's
spelling, and the paths of laws that moved from specs/ to proofs/ with them.

usage: tools/respell_pages.py        at the top; docs/port-names.txt has what each name became"""
import glob
import re

from respell import NAME, read, write

MOVED = {
    "boundary": ["Laws", "Refused", "Unique"],
    "cells": ["Laws"],
    "chip": ["Laws"],
    "event": ["Keeps", "Laws", "Leftovers", "Legality", "Said"],
    "job": ["Laws", "Legality"],
    "kinds": ["Laws", "RowLaws"],
    "legal": ["Laws", "Legality"],
    "listing": ["OutputLaws", "ReportLaws", "RoomLaws", "Sample", "TextLaws"],
    "part": ["Examples", "Laws", "WalkLaws"],
    "script": ["HeardLaws", "Laws", "ReadLaws", "ReportLaws", "RowLaws", "WatchLaws"],
    "sfdp": ["Examples", "Headers", "Laws", "Unique"],
    "verdict": ["Laws", "Legality"],
    "writer": ["Examples", "Laws", "Refusals", "Unique"],
}


def main():
    # a plain word that only a lemma lost to a definition may be the definition's or a function's here
    names = dict(line.split() for line in read("docs/port-names.txt").splitlines())
    names = {old: new for old, new in names.items() if new != old + "_lem"}

    def in_ticks(text):
        return re.sub(r"`[^`\n]*`", lambda m: NAME.sub(lambda n: names.get(n.group(0), n.group(0)), m.group(0)), text)

    def moved(text):
        def path(m):
            return f"{m.group(1)}/proofs/{m.group(2)}" if m.group(2) in MOVED.get(m.group(1), []) else m.group(0)

        return re.sub(r"\b(\w+)/specs/(\w+)", path, text)

    pages = ["README.md", "bench/README.md", "samples/README.md"] + sorted(glob.glob("docs/*.md"))
    for page in pages:
        if page != "docs/PORT.md":
            write(page, moved(in_ticks(read(page))))
    for source in sorted(glob.glob("crates/*/specs/*.antt") + glob.glob("crates/*/proofs/**/*.antt", recursive=True)):
        write(source, "\n".join(in_ticks(l) if l.lstrip().startswith("--") else l for l in read(source).split("\n")))
    for source in sorted(glob.glob("crates/*/src/*.rt")):
        write(source, "\n".join(in_ticks(l) if l.lstrip().startswith("//") else l for l in read(source).split("\n")))
    for edit in sorted(glob.glob("crates/*/must-fail/*.edit")):
        first, rest = read(edit).split("\n", 1)
        write(edit, in_ticks(first) + "\n" + rest)


if __name__ == "__main__":
    main()
