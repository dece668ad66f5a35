#!/usr/bin/env python3
"""Puts the table of speeds into README.md, made from docs/measured.csv and from the head of docs/MEASURED.md."""

import csv
import re
import statistics
import sys
from pathlib import Path

sys.dont_write_bytecode = True
ROOT = Path(__file__).resolve().parent.parent
sys.path.insert(0, str(ROOT / "benchmark"))

import pages

OURS = "vacation"
# The settings of the table: one in which threads seldom meet, and one in which they often do.
SHOWN = ("large", "defaults")


def median_rates():
    """The median of tasks a second, by the setting, the number of threads and the program."""
    rates = {}
    with open(ROOT / "docs/measured.csv", encoding="utf-8", newline="") as raw:
        for run in csv.DictReader(raw):
            key = run["setting"], int(run["clients"]), run["program"]
            rates.setdefault(key, []).append(int(run["answered"]) / float(run["seconds"]))
    return {key: statistics.median(found) for key, found in rates.items()}


def row_of_head(name):
    """What the head of docs/MEASURED.md says under this name."""
    found = re.search(rf"^\| {name} \| (.*) \|$", (ROOT / "docs/MEASURED.md").read_text(encoding="utf-8"), flags=re.M)
    if not found:
        raise ValueError(f"docs/MEASURED.md has no row '{name}' on what was measured")
    return found.group(1)


def lines():
    """This program's rates through those of each other program, with the fewest and with the most threads, and when and
    of which build they were measured."""
    rates = median_rates()
    threads = [number for _, number, _ in rates]
    ends = sorted({min(threads), max(threads)})
    settings = [setting for setting in SHOWN if (setting, ends[0], OURS) in rates]
    found = [f"| {' and '.join(map(str, ends))} threads: this program / | "
             + " | ".join(f"`{setting}`" for setting in settings) + " |",
             "|---|" + "---|" * len(settings)]
    for program in dict.fromkeys(name for _, _, name in rates if name != OURS):
        cells = [", ".join(f"{rates[setting, number, OURS] / rates[setting, number, program]:.2f}" for number in ends
                           if (setting, number, program) in rates) for setting in settings]
        found.append(f"| {program} | {' | '.join(cells)} |")
    date, commit = row_of_head("date").split()[0], row_of_head("commit")
    return [*found, "", f"Measured on {date}, commit {commit}; the program: {row_of_head(OURS)}."]


def is_current():
    """Whether README.md has these lines between its marks."""
    text = "\n".join([pages.BEGIN, "", *lines(), "", pages.END])
    return text in (ROOT / "README.md").read_text(encoding="utf-8")


def write():
    pages.put(ROOT / "README.md", lines())


if __name__ == "__main__":
    write()
