#!/usr/bin/env python3
"""Folds the lines of proofs by hand that are longer than a limit, at places that read well, with the words
as they are. Without arguments it folds all crates' proofs; with names, theirs. It
says how many lines were folded; `--check` folds nothing, and its status is 1 where a line is too long."""

import glob
import os
import sys
import textwrap

ROOT = os.path.dirname(os.path.dirname(os.path.abspath(__file__)))
WIDEST = 120
# How far left of the limit a place to break is looked for.
REACH = 60
DEEPER = 4
OPEN, CLOSE = "([{", ")]}"
# After these words a line reads well when it ends, the best first.
ENDS = {"in": 9, "=": 9, "→": 8, "↦": 8, ";": 8, ",": 6, "∙": 4, "×": 4, "⊎": 4, ":": 3}


def spaces_of(line):
    """The places of the spaces between words, outside texts and comments, with the brackets around each."""
    found, around, is_text, at = [], "", False, 0
    while at < len(line):
        sign = line[at]
        if is_text:
            if sign == "\\":
                at += 1
            elif sign == '"':
                is_text = False
        elif sign == '"':
            is_text = True
        elif sign in OPEN:
            around += sign
        elif sign in CLOSE:
            around = around[:-1]
        elif line.startswith("-- ", at) and line[at - 1 : at] == " ":
            break
        elif sign == " " and line[:at].strip() and line[at + 1] != ".":
            found.append((at, around))
        at += 1
    return found


def worth(line, at, around, least):
    """How well a line reads that ends at this space. `rt fmt` gives each field of a record that is broken a
    line of its own, so one is best broken where it begins."""
    last = line[:at].split()[-1]
    if around.endswith("{"):
        return (9 if last.endswith("{") else 6 if last.endswith(";") else -9) - 3 * (len(around) - 1 - least)
    worth_of = ENDS.get(last, ENDS.get(last[-1], 0))
    if line[at + 1] in "(λ" or line[at + 1 :].startswith(("∙", "→", "let ")):
        worth_of = max(worth_of, 3)
    if last in ("λ", "let", "rw", "ap", "case", "elim", "record") or last.endswith("."):
        worth_of -= 4
    return worth_of - 3 * (len(around) - least) + at / 20


def imports(line):
    """The names of an import, over as many lines as they need."""
    head, _, names = line.partition("{")
    lines = [head + "{"]
    for name in names.rstrip("}").split(", "):
        if len(lines[-1]) + len(name) > WIDEST - 3 and not lines[-1].endswith("{"):
            lines.append(head + "{")
        lines[-1] += name if lines[-1].endswith("{") else f", {name}"
    return [f"{it}}}" for it in lines]


def folded(line):
    """The line as lines that are no longer than the limit, where it has places to break."""
    indent = len(line) - len(line.lstrip(" "))
    if line.lstrip().startswith("--"):
        prefix = " " * indent + "-- "
        return textwrap.wrap(line.strip()[2:], WIDEST, initial_indent=prefix, subsequent_indent=prefix)
    if line.startswith(("use ", "pub use ")) and line.endswith("}"):
        return imports(line)
    lines, rest, deeper = [], line, " " * (indent + DEEPER)
    while len(rest) > WIDEST:
        places = spaces_of(rest)
        near = [it for it in places if WIDEST - REACH <= it[0] <= WIDEST]
        near = near or [it for it in places if it[0] <= WIDEST][-1:] or places[:1]
        if not near:
            break
        least = min(len(around) for _, around in near)
        at, _ = max(near, key=lambda it: worth(rest, *it, least))
        lines.append(rest[:at].rstrip())
        rest = deeper + rest[at + 1 :].lstrip()
    return [*lines, rest]


def fold(path, changes):
    """How many lines of a file are too long; they are folded where that is asked for."""
    with open(path, encoding="utf-8") as file:
        text = file.read()
    lines, wide = [], 0
    for line in text.split("\n"):
        if len(line) <= WIDEST:
            lines.append(line)
            continue
        made = folded(line)
        wide += len(made) > 1
        lines += made
    made = "\n".join(lines)
    if changes and made != text:
        with open(path, "w", encoding="utf-8") as file:
            file.write(made)
    return wide


def main():
    names = [it for it in sys.argv[1:] if it != "--check"] or sorted(os.listdir(f"{ROOT}/crates"))
    changes = "--check" not in sys.argv
    wide = sum(
        fold(path, changes)
        for name in names
        for path in glob.glob(f"{ROOT}/crates/{name}/proofs/**/*.antt", recursive=True)
    )
    print(f"{wide} lines beyond column {WIDEST}" + (", folded" if changes else ""))
    return 0 if changes else int(wide > 0)


sys.exit(main())
