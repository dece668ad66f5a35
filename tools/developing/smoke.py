"""The quick tests: builds the programs with nothing proved, and runs the scripts of tests/ that end soon."""

from __future__ import annotations

import tempfile
import time
from collections.abc import Sequence
from pathlib import Path

from .runner import PROGRAMS, ROOT, python, run, say

# The scripts of tests/ that together end within some five minutes; the others are for the gate.
QUICK = ("rows.sh", "examples.py", "pages.py", "library_page.py", "load.py", "tasks.py", "check.py", "judge.py",
         "order.py", "levels.py", "opaque.py", "history.py", "attempts.py", "stats.py", "progress.py",
         "coverage.py")


def main(words: Sequence[str]) -> int:
    """Returns 0 if the programs can be built and all quick tests pass."""
    if words:
        say("usage: ./dev smoke")
        return 2
    began, failed = time.monotonic(), []
    with tempfile.TemporaryDirectory() as folder:
        for name in PROGRAMS:
            if python("tools/unproved.py", [Path(folder) / name, name]):
                say(f"the program {name} does not compile")
                return 1
        program = Path(folder) / PROGRAMS[0]
        for name in QUICK:
            if run([ROOT / "tests" / name, program]):
                failed.append(name)
    say(f"{len(QUICK) - len(failed)} passed, {len(failed)} failed{': ' if failed else ''}{', '.join(failed)}; "
        f"nothing is proved; {time.monotonic() - began:.0f} seconds")
    return 1 if failed else 0
