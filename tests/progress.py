#!/usr/bin/env python3
"""Runs loads of the program that tell how far they are, with and without '--progress', and compares:
standard output and the status are the same, standard error is empty without it, and with it has
lines 'answered A of B', at most two a second, of which the counts never fall. Its argument is the
program; with none it is the one that the last build left."""

import os
import re
import subprocess
import sys
import time

LINE = re.compile(r"answered ([0-9]+) of ([0-9]+)\n")
# The least time between two lines is half a second; a reader on a busy machine may see less.
BETWEEN, SLACK = 0.5, 0.2

FAILED = []


def want(holds, what):
    if not holds:
        FAILED.append(what)
        print(f"progress: {what}", file=sys.stderr)


def words_of(settings, tells):
    words = ["load"]
    for name, value in settings.items():
        words += [f"--{name}", str(value)]
    return words + (["--progress"] if tells else [])


def run(program, settings, tells):
    """The status, what went to standard output, and the lines of standard error, each with the time
    at which it came."""
    with subprocess.Popen([program] + words_of(settings, tells), stdin=subprocess.DEVNULL,
                          stdout=subprocess.PIPE, stderr=subprocess.PIPE, text=True) as child:
        lines = [(time.monotonic(), line) for line in child.stderr]
        return child.wait(), child.stdout.read(), lines


def all_of(settings):
    return settings.get("rounds", 1) * settings["clients"] * settings["tasks"]


def look_at(lines, settings):
    """The lines of a load: their form, their counts and their times."""
    before, count = None, 0
    for now, line in lines:
        found = LINE.fullmatch(line)
        if not found:
            want(False, f"{settings}: the line {line!r}")
            continue
        answered, whole = map(int, found.groups())
        want(whole == all_of(settings), f"{settings}: {line!r}, of {all_of(settings)} tasks")
        want(count <= answered <= whole, f"{settings}: {line!r} after {count}")
        if before is not None:
            want(now - before >= BETWEEN - SLACK, f"{settings}: {now - before} seconds between lines")
        before, count = now, answered
    for first, last in zip(lines, lines[2:]):
        want(last[0] - first[0] >= 2 * BETWEEN - SLACK, f"{settings}: three lines in a second")


def of_one_client(program):
    """Loads of one client, longer and longer until one tells three times how far it is."""
    settings = {"clients": 1, "tasks": 1000, "items": 64, "rounds": 3, "seed": 5}
    for _ in range(12):
        quiet, told = run(program, settings, False), run(program, settings, True)
        want(quiet[:2] == told[:2] and quiet[0] == 0, f"{settings}: {quiet[:2]} and {told[:2]}")
        want(quiet[2] == [], f"{settings}: without --progress standard error has {quiet[2]}")
        look_at(told[2], settings)
        if len(told[2]) >= 3:
            return len(told[2])
        settings["tasks"] = min(1_000_000, settings["tasks"] * 4)
        if settings["tasks"] == 1_000_000:
            settings["rounds"] = min(100, settings["rounds"] * 2)
    want(False, f"{settings}: no more than {len(told[2])} lines")
    return 0


def of_several_clients(program):
    settings = {"clients": 4, "tasks": 100_000, "items": 16, "rounds": 2}
    status, output, lines = run(program, settings, True)
    look_at(lines, settings)
    tally = re.match(r"answered ([0-9]+) busy ([0-9]+) memory 0 spent 0\n[^\n]*\n$", output)
    want(status == 0 and tally and sum(map(int, tally.groups())) == all_of(settings),
         f"{settings}: {status}, {output!r}")
    if lines and tally:
        told = int(LINE.fullmatch(lines[-1][1])[1])
        want(told <= int(tally[1]), f"{settings}: {told} were told, {tally[1]} were answered")


def unwritable(program):
    """Standard error that is full or closed changes nothing."""
    words = words_of({"clients": 1, "tasks": 300_000, "seed": 3}, True)
    outputs = []
    for ending in ("", "2> /dev/null", "2> /dev/full", "2>&-"):
        done = subprocess.run(["bash", "-c", f'exec "$0" "$@" {ending}', program] + words,
                              stdout=subprocess.PIPE, stderr=subprocess.DEVNULL)
        outputs.append((done.returncode, done.stdout))
    want(outputs[0][0] == 0 and len(set(outputs)) == 1, f"standard error refused: {outputs}")


def refused(program):
    """A load that cannot be run says the same with it."""
    settings = {"clients": 1, "tasks": 10, "items": 300}
    said = []
    for progress in (False, True):
        status, output, lines = run(program, settings, progress)
        said.append((status, output, [line for _, line in lines]))
    want(said[0] == said[1] and said[0][:2] == (2, "fault arguments\n"), f"{settings}: {said}")


def main():
    here = os.path.dirname(os.path.realpath(__file__))
    program = os.path.join(here, "../crates/vacation/out/vacation")
    if len(sys.argv) > 1:
        program = sys.argv[1]
    if not os.access(program, os.X_OK):
        sys.exit(f"progress: there is no program at {program}: './vacation' builds it")
    lines = of_one_client(program)
    of_several_clients(program)
    unwritable(program)
    refused(program)
    print(f"progress: {lines} lines of one load and those of others, {len(FAILED)} failed")
    sys.exit(1 if FAILED else 0)


main()
