#!/usr/bin/env python3
"""Runs loads of the program that write the history of their calls ('--history'), and lets the
program judge them: each is legal, has a line for each call of the opening and each task that was
answered, and leaves the state that the load reports. Its times are those of a clock that runs while
the load does. A history with one answer changed is not legal. Its argument is the program; with
none it is the one that the last build left."""

import re
import subprocess
import sys
import time

import built

LINE = re.compile(r"[0-9]+ [0-9]+ [0-9]+ .+ -> .+")
TOLD = re.compile(r"answered ([0-9]+) busy [0-9]+ memory 0 spent 0\n([^\n]*)\n")
STATS = re.compile(r"seconds [^\n]*\n")
FAILED = []

LOADS = [
    {"tasks": 300, "items": 16},
    {"tasks": 300, "items": 1024, "user": 90, "asks": 2, "blocks": 16384},
    {"tasks": 300, "items": 1024, "user": 10, "asks": 8, "blocks": 16384},
    {"tasks": 50, "items": 2, "blocks": 40, "tries": 3, "rounds": 5},
]


def want(holds, what):
    if not holds:
        FAILED.append(what)
        print(f"history: {what}", file=sys.stderr)


def run(program, settings, *more):
    words = [word for name, value in settings.items() for word in (f"--{name}", str(value))]
    return subprocess.run([program, "load", *words, *more], capture_output=True, text=True,
                          timeout=300)


def judge(program, settings, history):
    blocks = str(settings.get("blocks", 1024))
    return subprocess.run([built.judge(program), "history", "--given-order", "--blocks", blocks], input=history,
                          capture_output=True, text=True, timeout=300)


def look_at_times(settings, lines, nanos):
    """Most calls take time, none longer than the run did, and no client calls before the opening is
    over."""
    calls = [tuple(map(int, line.split(" ", 3)[:3])) for line in lines]
    long = sum(begin < end for client, begin, end in calls)
    want(2 * long > len(calls), f"{settings}: {long} calls of {len(calls)} take time")
    last = max(end for client, begin, end in calls)
    want(0 < last < nanos, f"{settings}: the last call ends at {last}, in a run of {nanos}")
    opened = max(end for client, begin, end in calls if client == 0)
    first = min(begin for client, begin, end in calls if client > 0)
    want(opened <= first, f"{settings}: a client calls at {first}, the opening ends at {opened}")


def look_at(program, settings, *more):
    began = time.monotonic_ns()
    done = run(program, settings, "--history", *more)
    nanos = time.monotonic_ns() - began
    rest = STATS.sub("", done.stderr)
    rest = "".join(line + "\n" for line in rest.splitlines() if " of " not in line)
    told = TOLD.fullmatch(rest)
    want(done.returncode == 0 and told, f"{settings}: {done.returncode}, {done.stderr!r}")
    if not told:
        return None
    lines = done.stdout.splitlines()
    want(all(map(LINE.fullmatch, lines)), f"{settings}: a line that is none of a history")
    look_at_times(settings, lines, nanos)
    opening = 4 * settings["items"]
    want(len(lines) == opening + int(told[1]), f"{settings}: {len(lines)} lines, {told[1]} answers")
    want(sum(line.startswith("0 ") for line in lines) == opening, f"{settings}: the opening's lines")
    verdict = judge(program, settings, done.stdout)
    want(verdict.returncode == 0 and verdict.stdout.startswith("legal "), f"{settings}: {verdict}")
    want(verdict.stdout.splitlines()[1:] == [told[2]], f"{settings}: {verdict.stdout!r}, {told[2]!r}")
    return done.stdout


def damaged(program, settings, history):
    """A history in which a customer that was made is said to have been there before."""
    lines = history.splitlines()
    place = next(k for k, line in enumerate(lines) if " newcust " in line)
    lines[place] = lines[place].split(" -> ")[0] + " -> 7"
    verdict = judge(program, settings, "".join(line + "\n" for line in lines))
    want(verdict.returncode == 1 and verdict.stdout.startswith("illegal reply"),
         f"{settings}, damaged: {verdict}")


def main():
    program = built.vacation()
    for options in LOADS:
        for clients in (1, 2, 8, 64):
            settings = options | {"clients": clients}
            history = look_at(program, settings)
            if history:
                damaged(program, settings, history)
    both = {"clients": 2, "tasks": 500, "items": 16}
    look_at(program, both, "--stats", "--progress")
    # clients that add units of few items, beside questions for them: no unit is lost
    look_at(program, {"clients": 4, "tasks": 2000, "items": 4, "user": 0, "reads": 25, "tries": 1000})
    plain = run(program, {"clients": 1})
    want(TOLD.fullmatch(plain.stdout) and plain.stderr == "", f"without it: {plain}")
    short = run(program, {"clients": 1, "items": 300}, "--history")
    want((short.returncode, short.stdout) == (2, "fault arguments\n"), f"{short}")
    print(f"history: {len(FAILED)} failed")
    return 1 if FAILED else 0


if __name__ == "__main__":
    sys.exit(main())
