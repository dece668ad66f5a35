#!/usr/bin/env python3
"""Runs the examples of the pages below, and compares what they write with what the pages say. An example is a block of
a page of which the first line begins with '$ ': each such line is a command for bash, and the lines behind it are what
it writes. In a command './vacation' is the program, a file that is built already: the argument, or with none the one
that the repository's last build left; './judge' is that beside it, and './explain', './convert' and the files of docs,
include, share and benchmark are there, too. Examples that need compilers of C and C++ are skipped if there are none."""

import os
import shutil
import subprocess
import sys
import tempfile

import built

ROOT = os.path.join(os.path.dirname(os.path.realpath(__file__)), "..")
PAGES = ["README.md", "docs/USING.md", "docs/RULES.md", "docs/CHECK-STM.md", "docs/CHECK-DATA.md", "docs/EXPLAIN.md",
         "docs/LOGS.md", "docs/DATABASES.md", "benchmark/databases/README.md"]
# How long a command may take, in seconds: one builds a peer, others run a database.
PATIENCE = 300
FENCE = "```"
PROMPT = "$ "


def blocks(page):
    """The fenced blocks of a page, each as the number of its first line and its lines."""
    found = []
    inside = None
    with open(page, encoding="utf-8") as lines:
        for number, line in enumerate(lines.read().split("\n"), 1):
            if not line.startswith(FENCE):
                if inside is not None:
                    inside[1].append(line)
            elif inside is None:
                inside = (number + 1, [])
            else:
                found.append(inside)
                inside = None
    if inside is not None:
        sys.exit(f"examples: {page}: the block at line {inside[0]} has no end")
    return found


def examples(page):
    """The examples of a page, each as the number of its line, its command and what it writes."""
    found = []
    for first, lines in blocks(page):
        if not lines or not lines[0].startswith(PROMPT):
            continue
        for number, line in enumerate(lines, first):
            if line.startswith(PROMPT):
                found.append((number, line[len(PROMPT):], []))
            else:
                found[-1][2].append(line + "\n")
    return [(number, command, "".join(output)) for number, command, output in found]


def run(command, folder):
    """What a command writes to standard output, and to standard error."""
    ended = subprocess.run(
        ["bash", "-c", command], cwd=folder, stdin=subprocess.DEVNULL,
        stdout=subprocess.PIPE, stderr=subprocess.PIPE, timeout=PATIENCE, check=False,
        env=os.environ | {"JUDGE": os.path.join(folder, "judge"), "PATH": f"{folder}:{os.environ['PATH']}"},
    )
    return ended.stdout.decode("latin-1"), ended.stderr.decode("latin-1")


def can_run(command):
    """Whether this machine has the compilers that a command needs."""
    has_compilers = shutil.which("cc") and (shutil.which("g++") or shutil.which("c++"))
    return has_compilers or not any(word in command for word in ("benchmark/build", "cc -", "built/"))


def main():
    program, judge = built.vacation(), built.judge()
    for name, path in (("vacation", program), ("judge", judge)):
        if not os.access(path, os.X_OK):
            sys.exit(f"examples: there is no program at {path}: './{name}' builds it")
    played = failed = skipped = 0
    with tempfile.TemporaryDirectory() as folder:
        os.symlink(os.path.realpath(program), os.path.join(folder, "vacation"))
        os.symlink(os.path.realpath(judge), os.path.join(folder, "judge"))
        for name in ("explain", "convert", "docs", "include", "share"):
            os.symlink(os.path.realpath(os.path.join(ROOT, name)), os.path.join(folder, name))
        # (a copy, since its scripts look for the programs above their own folder)
        shutil.copytree(os.path.join(ROOT, "benchmark"), os.path.join(folder, "benchmark"),
                        ignore=shutil.ignore_patterns("out", "__pycache__"))
        for page in PAGES:
            found = examples(os.path.join(ROOT, page))
            if not found:
                sys.exit(f"examples: there are no examples in {page}")
            for number, command, wanted in found:
                if not can_run(command):
                    skipped += 1
                    continue
                played += 1
                written, told = run(command, folder)
                if written != wanted:
                    failed += 1
                    print(f"examples: {page}, line {number}: {command}", file=sys.stderr)
                    print(f"wanted:\n{wanted}written:\n{written}standard error:\n{told}", file=sys.stderr)
    rest = f", {skipped} skipped: there is no compiler of C and C++" if skipped else ""
    print(f"examples: {played - failed} of {played} examples write what their pages say{rest}")
    return 1 if failed else 0


if __name__ == "__main__":
    sys.exit(main())
