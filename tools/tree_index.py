"""Makes docs/INDEX.md: each crate with what it is and what it stands on, and each file of definitions with what it says, in
the first sentences of the files. `./dev contracts --write` writes the page."""

import re
from pathlib import Path

import rattle
from crate_pages import cell, first_sentence

ROOT = Path(__file__).resolve().parent.parent
PAGE = ROOT / "docs" / "INDEX.md"
HEAD = """# Index

`./dev contracts --write` writes this page from the first sentences of the files, and `tests/pages.py` compares it with \
them. It is for looking up where a rule lives: search for a word of the rule. [Architecture](ARCHITECTURE.md) explains \
the whole.
"""


def head_of(path, mark):
    """The first sentence of the comment at the head of a file."""
    lines = re.match(rf"(?:{mark} ?.*\n)*", path.read_text()).group().splitlines()
    paragraph = " ".join(line.removeprefix(mark).strip() for line in lines).split("  ")[0]
    return cell(first_sentence(paragraph))


def stands_on(below):
    """The crates of this tree on which each crate stands, without those on which these stand already."""
    under, least = {}, {}
    for name, libraries in below.items():
        here = [library for library in libraries if library in below]
        under[name] = set(here).union(*(under[library] for library in here))
        least[name] = [one for one in here if not any(one in under[other] for other in here)]
    return least


def crates(below):
    rows = ["| Crate | What it is | Stands on |", "|---|---|---|"]
    for name, least in stands_on(below).items():
        source = next(path for path in (ROOT / "crates" / name / "src").glob("*.rt") if path.stem in ("lib", "main"))
        rows.append(f"| {name} | {head_of(source, '//!')} | {' '.join(least)} |")
    return rows


def definitions(name):
    """The files of a crate's definitions, but for lists of modules, which have no comment at their head."""
    found = [(path, head_of(path, "--")) for path in sorted((ROOT / "crates" / name / "specs").rglob("*.antt"))]
    rows = [f"| `{path.relative_to(ROOT / 'crates')}` | {text} |" for path, text in found if text]
    return [f"### {name}", "", "| File | Content |", "|---|---|", *rows, ""] if rows else []


def made():
    below = rattle.listed_crates()
    rules = [line for name in below if not name.startswith("test_") for line in definitions(name)]
    return "\n".join([HEAD, "## Crates", "", *crates(below), "", "## Definitions", "", *rules])
