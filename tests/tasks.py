#!/usr/bin/env python3
"""Compares the tasks that the program draws, line by line, with those of the model in model.py, which
stands apart from it. Its argument is the program; with none it is the one that the last build left."""

import os
import subprocess
import sys

sys.dont_write_bytecode = True
from model import DEFAULTS, MASK, line_of, opening, tasks_of

SETTINGS = [
    {},
    {"clients": 1},
    {"clients": 64, "tasks": 3},
    {"clients": 2, "tasks": 1, "items": 1, "asks": 1, "user": 0, "seed": 0},
    {"clients": 3, "rounds": 4, "tasks": 50, "items": 7, "user": 30, "seed": MASK},
    {"clients": 2, "tasks": 2000, "items": 300, "asks": 32, "user": 50, "seed": 7, "blocks": 4000},
    {"clients": 1, "tasks": 5000, "items": 65536, "asks": 32, "user": 10, "seed": 12,
     "blocks": 262144},
    {"clients": 2, "tasks": 40, "user": 100},
]


def wanted(settings):
    lines = [f"0 {line_of(task)}\n" for task in opening(settings)]
    for client in range(1, settings["clients"] + 1):
        lines += [f"{client} {line_of(task)}\n" for task in tasks_of(settings, client)]
    return lines


def tasks(program, settings):
    words = [program, "tasks"]
    for name, value in settings.items():
        words += [f"--{name}", str(value)]
    done = subprocess.run(words, capture_output=True, text=True, timeout=300)
    return done.returncode, done.stdout.splitlines(keepends=True), done.stderr


def main():
    here = os.path.dirname(os.path.realpath(__file__))
    program = os.path.join(here, "../crates/vacation/out/vacation")
    if len(sys.argv) > 1:
        program = sys.argv[1]
    if not os.access(program, os.X_OK):
        sys.exit(f"tasks: there is no program at {program}: './vacation' builds it")
    failed = number = 0
    for settings in SETTINGS:
        right = wanted(DEFAULTS | settings)
        status, lines, errors = tasks(program, settings)
        number += len(right)
        if (status, lines, errors) != (0, right, ""):
            failed += 1
            place = next((at for at, pair in enumerate(zip(lines, right)) if pair[0] != pair[1]),
                         min(len(lines), len(right)))
            print(f"tasks: {settings}: status {status}, {errors!r}; line {place + 1} is "
                  f"{lines[place:place + 1]}, not {right[place:place + 1]}", file=sys.stderr)
    print(f"tasks: {number} lines of {len(SETTINGS)} settings, {failed} failed")
    sys.exit(1 if failed else 0)


main()
