#!/usr/bin/env python3
"""Holds docs/LIBRARY.md and docs/CHECK-DATA.md against the sources: each fenced piece of them that has a language names
a file of the repository after it, and must stand in that file as it is, line by line. Those of the crate `cell` are
held against what `tools/new_law cell` makes, those of `number` against what `tools/new_object number` makes."""

import os
import re
import shutil
import subprocess
import sys
import tempfile

ROOT = os.path.dirname(os.path.dirname(os.path.abspath(__file__)))
# Each page: the tool that makes its first crate, the crate, and the least number of pieces.
PAGES = {"LIBRARY.md": ("new_law", "cell", 6), "CHECK-DATA.md": ("new_object", "number", 4)}


def is_piece(root, name, piece):
    """Whether this stands in the file of that name."""
    with open(os.path.join(root, name), encoding="utf-8") as file:
        return "\n" + piece in "\n" + file.read()


def faults(page, tool, crate, least):
    """The number of pieces of a page, and how many of them are wrong."""
    with open(os.path.join(ROOT, "docs", page), encoding="utf-8") as file:
        pieces = re.findall(r"^```(\S+) ?(\S*)\n(.*?)^```$", without_plain(file.read()), re.M | re.S)
    bad = 0
    with tempfile.TemporaryDirectory() as made:
        shutil.copy(f"{ROOT}/crates.txt", made)
        subprocess.run([f"{ROOT}/tools/{tool}", crate, made], check=True, stdout=subprocess.DEVNULL)
        for _, name, piece in pieces:
            root = made if re.match(rf"crates/(test_)?{crate}(_\w+)?/", name) else ROOT
            if not name or not os.path.isfile(os.path.join(root, name)):
                print(f"{page}: a piece names no file: {piece.splitlines()[0]}")
                bad += 1
            elif not is_piece(root, name, piece):
                print(f"{page}: this is no piece of {name}: {piece.splitlines()[0]}")
                bad += 1
    if len(pieces) < least:
        print(f"{page}: {len(pieces)} pieces, at least {least} are wanted")
        bad += 1
    return len(pieces), bad


def without_plain(text):
    """A page without its pieces that have no language: commands, and what they write."""
    return re.sub(r"^(```(\S*).*?\n.*?^```)$", lambda piece: piece[1] if piece[2] else "", text, flags=re.M | re.S)


def main():
    found = [faults(page, *wanted) for page, wanted in PAGES.items()]
    bad = sum(wrong for _, wrong in found)
    print(f"{sum(pieces for pieces, _ in found)} pieces, {bad} wrong")
    return 1 if bad else 0


sys.exit(main())
