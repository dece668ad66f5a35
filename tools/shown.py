#!/usr/bin/env python3
"""Keeps what was shown of the mutants of tests/plants, each result under a checksum of the texts that it rests on.

A file tests/plants/CRATE.shown has a line `NAME OUTCOME SUM GOAL..` for each mutant that was tried, sorted by name. The
outcome is 'shown' (a goal of the body's own stays open), 'hand' (only an answer by hand no longer fits) or 'proved' (no
clause was meant to refuse the mutant). A line counts while its sum is that of the tree, so a run in a fresh clone tries
only mutants of which something else has changed. Where two branches tried mutants of one crate, git keeps the lines of
both, and the line that fits counts.

A result rests on the mutant, on the texts of its crate, on the contracts of the crates below, on the toolchain, and on
how a refusal is judged (JUDGING). Of a crate below it rests on contracts alone, since a caller knows a function by its
clauses: the check of a crate is given definitions, types, constants and clauses of the crates below, and no body. (A
constant's value calls no function.) It is given their lemmas too, but no lemma makes a body right that breaks its
clause. So left out are bodies, private functions, proofs and comments of the crates below."""

import hashlib
import re
import subprocess
from functools import lru_cache

import rattle
from mutants import LISTS
from rattle import below

# The version of how a refusal is judged: raised with a change after which an earlier result says something else.
JUDGING = 1
DIGITS = 20

USE = re.compile(r"(?:#\[[^\n]*\] *)?\b(?:ghost )?use ([^;]+);")
PUBLIC = re.compile(r"\bpub(\([^)]*\))? $")
HINT = re.compile(r"(?m)^ *#\[(?:tactic|inline|cold)\b[^\n]*\]\n")
COMMENT = re.compile(r"(?m)^[ \t]*--.*\n?")


def sum_of(*parts):
    """A checksum of texts and lists of texts."""
    return hashlib.sha256(repr(parts).encode()).hexdigest()[:DIGITS]


def without_comments(path, text=None):
    """The text of a file without comments, its words with one space between them."""
    text = rattle.read(path) if text is None else text
    if path.suffix == ".rt":
        text = rattle.MASKED.sub(lambda m: " " if m.group().startswith(("//", "/*")) else m.group(), text)
    else:
        text = COMMENT.sub("", text)
    return " ".join(text.split())


def texts(crate, part):
    """The texts of a part of a crate, such as specs, by their paths in it."""
    folder = rattle.CRATES / crate / part
    return [(str(path.relative_to(folder)), without_comments(path))
            for path in sorted(folder.rglob("*")) if path.suffix in (".rt", ".antt")]


def used_names(tree, path=""):
    """Yields each path that a `use` names, with the name that it gives there."""
    opening = tree.find("{")
    if opening < 0:
        named, _, other = tree.strip().partition(" as ")
        yield path + named, other or re.split(r"::|\.", named)[-1]
        return
    depth, part = 0, ""
    for char in tree[opening + 1:tree.rindex("}")] + ",":
        depth += (char == "{") - (char == "}")
        if char == "," and depth == 0:
            if part.strip():
                yield from used_names(part, path + tree[:opening].strip())
            part = ""
        else:
            part += char


def contract_text(path):
    """A file of src without what no crate above can know: bodies, private functions, comments, hints to the prover, and
    imports of names that are left nowhere."""
    text, kept, at = rattle.read(path), [], 0
    traits = [(begin, end) for begin, end, _, _, kind, _ in rattle.blocks(path) if kind == "trait"]
    for function in rattle.functions(path):
        if function.start < at:
            continue
        is_known = function.public or any(begin < function.start < end for begin, end in traits)
        kept.append(text[at:function.body if is_known else function.start])
        at = function.end
    text = without_comments(path, HINT.sub("", "".join([*kept, text[at:]])))
    uses = [(found, list(used_names(found[1]))) for found in USE.finditer(text) if not PUBLIC.search(text, 0, found.start())]
    rest = USE.sub("", text)
    names = sorted(named for _, listed in uses for named, name in listed
                   if name in ("*", "self") or all(part in rest for part in name.split("◌")))
    for found, _ in reversed(uses):
        text = text[:found.start()] + text[found.end():]
    return text, names


@lru_cache(maxsize=None)
def contracts_of(crate):
    """A checksum of what crates above can know of a crate."""
    return sum_of(crate, [(path.name, *contract_text(path)) for path in rattle.sources(crate)], texts(crate, "specs"))


@lru_cache(maxsize=None)
def base_of(crate):
    """A checksum of all that the results of a crate's mutants rest on, but for the mutants."""
    own = [texts(crate, part) for part in ("src", "specs", "proofs")]
    return sum_of(JUDGING, toolchain(), own, [contracts_of(name) for name in sorted(below(crate) - {crate})])


@lru_cache(maxsize=None)
def toolchain():
    """The name of the toolchain."""
    return subprocess.run(["rt", "version"], capture_output=True, text=True, check=True).stdout.split("\n")[0]


def stands_on(plant):
    """A checksum of all that a mutant's result rests on."""
    return sum_of(base_of(plant.crate), plant.name, [tuple(edit) for edit in plant.edits])


def tree():
    """What tells whether a text of the crates was changed, as those that are read here are remembered."""
    folders = [crate / part for crate in rattle.CRATES.iterdir() for part in ("src", "specs", "proofs")]
    found = [(str(path), path.stat()) for folder in folders for path in folder.rglob("*.*")]
    return {name: (stat.st_mtime_ns, stat.st_size) for name, stat in found}


class Shown:
    """The kept results of one crate's mutants: lines by name, each with outcome, sum and goal."""

    def __init__(self, crate):
        self.file = LISTS / f"{crate}.shown"
        lines = self.file.read_text().splitlines() if self.file.is_file() else []
        self.lines = [line.split(" ", 3) for line in lines if line.count(" ") >= 2]

    def of(self, plant):
        """The outcome of a mutant and the goal that shows it, if a result of these very texts is kept."""
        wanted = stands_on(plant)
        return next(((line[1], line[3:]) for line in self.lines if line[0] == plant.name and line[2] == wanted), None)

    def keep(self, plant, outcome, goal, names):
        """Keeps a result in the place of earlier ones; drops those of mutants whose names are no longer listed."""
        line = [plant.name, outcome, stands_on(plant), *([goal] if goal else [])]
        self.lines = [kept for kept in self.lines if kept[0] != plant.name and kept[0] in names] + [line]
        self.file.write_text("".join(f"{' '.join(kept)}\n" for kept in sorted(self.lines)))
