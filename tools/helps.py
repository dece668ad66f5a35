#!/usr/bin/env python3
"""Writes into docs/USING.md what the programs write for each of its commands that ends in --help. Its arguments are the
files of vacation and judge, which are built already; with none they are those that the last build left. (That the page
has what the programs write is compared by tests/examples.py.)"""

import subprocess
import sys
from pathlib import Path

ROOT = Path(__file__).resolve().parent.parent
PAGE = ROOT / "docs" / "USING.md"
NAMES = ("vacation", "judge")
PROMPT, FENCE, END = "$ ./", "```", " --help"


def with_helps(text, programs):
    """The text of a page with the present output of each of its commands that ends in --help."""
    lines, is_output = [], False
    for line in text.split("\n"):
        is_output = is_output and not line.startswith((PROMPT, FENCE))
        if not is_output:
            lines.append(line)
        if line.startswith(PROMPT) and line.endswith(END):
            name, *words = line.removeprefix(PROMPT).split(" ")
            told = subprocess.run([name, *words], executable=programs[name], capture_output=True, text=True, check=True)
            lines += told.stdout.splitlines()
            is_output = True
    return "\n".join(lines)


def main():
    files = sys.argv[1:] or [ROOT / "crates" / name / "out" / name for name in NAMES]
    if len(files) != len(NAMES):
        sys.exit("usage: tools/helps.py [VACATION JUDGE]")
    PAGE.write_text(with_helps(PAGE.read_text(), dict(zip(NAMES, files))))


if __name__ == "__main__":
    main()
