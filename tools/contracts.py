#!/usr/bin/env python3
"""Reads the contracts of the tree: each clause of each public call, one on a line, and what each implementation of a trait
states by `ghost NAME = {..}`, for example the text that a `Display` writes; crates `test_..` are left out of the latter.

A line is CRATE FUNCTION requires|ensures NAME: TEXT, or CRATE TRAIT for TYPE states NAME: TEXT. Definitions are not
followed: a clause may say less though its text is the same. `--budget CRATE FUNCTION` lists what a contract rests on,
and `git diff REV -- crates/*/specs` shows what changed there."""

import argparse
import subprocess
import sys
import tempfile
from collections import Counter
from dataclasses import dataclass
from pathlib import Path

import budget
import crate_pages
import rattle
import tree_index

TOP = Path(__file__).resolve().parent.parent
SNAPSHOT = TOP / "docs" / "clauses.txt"


@dataclass(frozen=True, order=True)
class Line:
    place: str      # the crate and the function
    kind: str
    name: str
    text: str

    def __str__(self):
        return f"{self.place} {self.kind} {self.name or '-'}: {self.text}"

    def said(self):
        """The clause without its place and name."""
        return self.kind, self.text


def lines_of(root):
    """The clauses of all public calls of the tree at this folder, and what its implementations state."""
    rattle.read_tree(root)
    clauses = [Line(f"{crate} {function.title()}", clause.kind, clause.name, clause.text)
               for crate in rattle.listed_crates() for file in rattle.sources(crate)
               for function in rattle.functions(file) if rattle.is_public(function)
               for clause in function.clauses]
    return clauses + [Line(f"{crate} {stated.head}", "states", stated.name, stated.text)
                      for crate in rattle.listed_crates() if not crate.startswith("test_")
                      for file in rattle.sources(crate) for stated in rattle.statements(file)]


def lines_at(revision):
    """The clauses of the tree at a commit."""
    with tempfile.TemporaryDirectory() as folder:
        archive = subprocess.run(["git", "-C", str(TOP), "archive", revision], stdout=subprocess.PIPE, check=True)
        subprocess.run(["tar", "-x", "-C", folder], input=archive.stdout, check=True)
        return lines_of(Path(folder))


def print_changes(before, after):
    """Prints what went and what came; a text that stands elsewhere now is marked as moved."""
    gone, come = Counter(before) - Counter(after), Counter(after) - Counter(before)
    elsewhere = Counter(line.said() for line in come.elements())
    for line in sorted(gone.elements()):
        mark = "=" if elsewhere[line.said()] > 0 else "-"
        elsewhere[line.said()] -= mark == "="
        print(mark, line)
    for line in sorted(come.elements()):
        print("+", line)


def snapshot():
    """The text of the snapshot: each clause of each public call, in the order of the crates, then what
    implementations state."""
    return "".join(f"{line}\n" for line in lines_of(TOP))


def check():
    """Compares docs/clauses.txt, the sizes of the promises in docs/PROMISES.md, and docs/INDEX.md with the tree."""
    if not SNAPSHOT.is_file() or SNAPSHOT.read_text(encoding="utf-8") != snapshot():
        sys.exit("docs/clauses.txt differs from the tree: compare the clauses by git diff after ./dev contracts --write")
    if budget.table_differs():
        sys.exit("docs/PROMISES.md: the sizes of the statements differ: ./dev contracts --write")
    if tree_index.PAGE.read_text(encoding="utf-8") != tree_index.made():
        sys.exit("docs/INDEX.md is not that of the tree: ./dev contracts --write")


def parser():
    """The parser of the command line."""
    options = argparse.ArgumentParser(prog="./dev contracts", description=__doc__,
                                      formatter_class=argparse.RawDescriptionHelpFormatter)
    kind = options.add_mutually_exclusive_group()
    kind.add_argument("--write", action="store_true",
                      help="write docs/clauses.txt, docs/INDEX.md, and the sizes of the promises in docs/PROMISES.md")
    kind.add_argument("--check", action="store_true", help="compare these pages with the tree; status 1 if they differ")
    kind.add_argument("--since", metavar="REV", help="print clauses that went (-) and came (+) since a commit; a clause "
                      "that only moved to another crate or function is marked (=)")
    kind.add_argument("--budget", nargs="*", metavar="WORD", help="print how large the statement of each promise is, or "
                      "the definitions of promise N, or of CRATE FUNCTION (Type::name), in the order of reading")
    kind.add_argument("--pages", action="store_true", help="write out/contracts: what each crate promises")
    return options


def main():
    words = parser().parse_args()
    if words.write:
        SNAPSHOT.write_text(snapshot(), encoding="utf-8")
        budget.write_table()
        tree_index.PAGE.write_text(tree_index.made(), encoding="utf-8")
    elif words.check:
        check()
    elif words.since:
        print_changes(lines_at(words.since), lines_of(TOP))
    elif words.pages:
        crate_pages.write_pages()
    elif words.budget == []:
        print(budget.table(), end="")
    elif words.budget:
        budget.print_closure(budget.closure_named(words.budget))
    else:
        print(snapshot(), end="")


if __name__ == "__main__":
    main()
