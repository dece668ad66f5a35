#!/usr/bin/env python3
"""Builds the template share/vacation/templates/java/Maps.java by the commands at its head: histories of the library's
lock-free map are legal, and the mistake that the template can be run with is found within twenty runs. Skipped, with a
word, if there is no Java compiler. Its argument is the program vacation, beside whose crate that of judge stands;
with none it is the one that the last build left."""

import os
import shutil
import subprocess
import sys
import tempfile
from pathlib import Path

ROOT = Path(__file__).resolve().parent.parent
TEMPLATE = ROOT / "share/vacation/templates/java/Maps.java"
LEGAL_RUNS, MOST_RUNS, PATIENCE = 2, 20, 300


def verdict(program, words, folder):
    """The first line of the verdict on a run with these words."""
    ran = subprocess.run(["java", "-cp", folder, "Maps", *words], stdout=subprocess.PIPE, timeout=PATIENCE, check=True)
    return subprocess.run([program, "keys"], input=ran.stdout, stdout=subprocess.PIPE, timeout=PATIENCE,
                          check=False).stdout.decode().split("\n")[0]


def main():
    """Status 0: the runs of the map are legal, and the mistake is found."""
    vacation = sys.argv[1] if len(sys.argv) > 1 else f"{ROOT}/crates/vacation/out/vacation"
    program = Path(os.path.abspath(vacation)).parent.parent.parent / "judge/out/judge"
    if not shutil.which("javac") or not shutil.which("java"):
        print("maps: skipped: there is no Java compiler")
        return 0
    if not os.access(program, os.X_OK):
        print(f"maps: {program} is missing: build judge first")
        return 1
    with tempfile.TemporaryDirectory() as folder:
        subprocess.run(["javac", "-d", folder, TEMPLATE], timeout=PATIENCE, check=True)
        for _ in range(LEGAL_RUNS):
            found = verdict(program, [], folder)
            if found != "legal calls=80000 clients=4 objects=16":
                print(f"maps: a history of the library's map: {found}")
                return 1
        for runs in range(1, MOST_RUNS + 1):
            if verdict(program, ["--mistake"], folder).startswith("illegal part "):
                print(f"maps: {LEGAL_RUNS} histories of the library's map are legal; the mistake is found in run {runs}")
                return 0
    print(f"maps: the mistake is not found within {MOST_RUNS} runs")
    return 1


if __name__ == "__main__":
    sys.exit(main())
