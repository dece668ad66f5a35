#!/usr/bin/env python3
"""Runs loads of the program that tell their numbers ('--stats'): standard error has one line, of a
form that the benchmark reads, whose numbers fit each other and the two lines of the output, which
stay as they are. Its argument is the program; with none it is the one that the last build left."""

import os
import re
import subprocess
import sys
import time

sys.dont_write_bytecode = True
HERE = os.path.dirname(os.path.realpath(__file__))
sys.path.insert(0, os.path.join(HERE, "../benchmark"))
from programs import numbers_told

LINE = re.compile(r"seconds [0-9]+\.[0-9]{6} tasks-per-second [0-9]+ attempts [0-9]+ held [0-9]+ "
                  r"newer [0-9]+ moved [0-9]+ lost-lock [0-9]+ lost-tick [0-9]+ "
                  r"roots [0-9]+ heads [0-9]+ nodes [0-9]+ uses [0-9]+ stocks [0-9]+ "
                  r"attempts-per-task [0-9]+\.[0-9]{3}\n")
CONFLICTS = ["held", "newer", "moved", "lost-lock", "lost-tick"]
WORDS = ["roots", "heads", "nodes", "uses", "stocks"]
TALLY = re.compile(r"answered ([0-9]+) busy ([0-9]+) memory 0 spent 0\n[^\n]*\n")
SHORT = "error: --items 300 needs --blocks 1200 at least, and --blocks is 1024\n"
FAILED = []

LOADS = [
    {"clients": 1},
    {"clients": 1, "tasks": 2000, "items": 64, "rounds": 5, "seed": 7},
    {"clients": 2, "tasks": 5000, "items": 16},
    {"clients": 8, "tasks": 1000, "items": 2, "blocks": 40, "tries": 3},
    {"clients": 64, "tasks": 20, "rounds": 3, "items": 1, "blocks": 8, "tries": 1},
]


def want(holds, what):
    if not holds:
        FAILED.append(what)
        print(f"stats: {what}", file=sys.stderr)


def run(program, settings, *more):
    words = [word for name, value in settings.items() for word in (f"--{name}", str(value))]
    return subprocess.run([program, "load", *words, *more], capture_output=True, text=True,
                          timeout=300)


def look_at(program, settings):
    done = run(program, settings, "--stats")
    tally = TALLY.fullmatch(done.stdout)
    want(done.returncode == 0 and tally, f"{settings}: {done.returncode}, {done.stdout!r}")
    want(LINE.fullmatch(done.stderr), f"{settings}: {done.stderr!r}")
    told = numbers_told(done.stderr)
    if not tally or not told:
        want(False, f"{settings}: nothing was told")
        return
    answered, busy = map(int, tally.groups())
    tries = settings.get("tries", 64)
    conflicts = sum(told[name] for name in CONFLICTS)
    want(told["attempts"] == answered + conflicts, f"{settings}: {told} of {answered} answers")
    want(conflicts >= busy * tries, f"{settings}: {told}, of {busy} tasks given up")
    want(conflicts <= busy * tries + answered * (tries - 1), f"{settings}: {told} of {tries} tries")
    over = sum(told[name] for name in WORDS)
    want(over + told["lost-tick"] == conflicts, f"{settings}: {told}, over {over} locks")
    want(told["attempts"] <= (answered + busy) * tries, f"{settings}: {told} of {tries} tries")
    want(settings["clients"] > 1 or conflicts == 0, f"{settings}: {told} of one client")
    share = told["attempts"] / answered if answered else 0
    want(abs(told["attempts-per-task"] - share) < 0.002, f"{settings}: {told}, not {share}")
    seconds, rate = told["seconds"], told["tasks-per-second"]
    want(seconds > 0 and abs(rate * seconds - answered) <= answered * 2e-6 / seconds + seconds + 1,
         f"{settings}: {told}")


def without_progress(text):
    """The lines of a text but for those of '--progress'."""
    return "".join(line + "\n" for line in text.splitlines() if " of " not in line)


def clients_share(program, *more):
    """The share of a run's seconds that is told of its one client, after an opening of many entries."""
    settings = {"clients": 1, "tasks": 100, "items": 16384, "blocks": 65536}
    begun = time.monotonic()
    done = run(program, settings, "--stats", *more)
    whole = time.monotonic() - begun
    told = numbers_told(without_progress(done.stderr))
    return told["seconds"] / whole if told else 0


def leaves_the_opening_out(program):
    """The seconds are those of the clients alone: here the opening takes nearly all of the time, in
    one of three runs at least, since a client may stand still for as long."""
    for more in ([], ["--progress"]):
        shares = [clients_share(program, *more) for _ in range(3)]
        want(0 < min(shares) < 0.5, f"the clients' shares of runs with {more}: {shares}")


def stays(program):
    """The output of one client is the same with it, and with '--progress' beside it."""
    settings = {"clients": 1, "tasks": 1000, "rounds": 2}
    quiet, told = run(program, settings), run(program, settings, "--stats")
    both = run(program, settings, "--stats", "--progress")
    want(quiet.stdout == told.stdout and quiet.stderr == "", f"{quiet}, {told}")
    want(both.returncode == 0 and LINE.fullmatch(without_progress(both.stderr))
         and both.stdout == quiet.stdout, f"told on the way too: {both}")
    short = run(program, {"clients": 1, "items": 300}, "--stats")
    want((short.returncode, short.stdout, short.stderr) == (2, "fault arguments\n", SHORT), f"{short}")


def main():
    program = os.path.join(HERE, "../crates/vacation/out/vacation")
    if len(sys.argv) > 1:
        program = sys.argv[1]
    if not os.access(program, os.X_OK):
        sys.exit(f"stats: there is no program at {program}: './vacation' builds it")
    for settings in LOADS:
        look_at(program, settings)
    stays(program)
    leaves_the_opening_out(program)
    print(f"stats: {len(LOADS)} loads, {len(FAILED)} failed")
    sys.exit(1 if FAILED else 0)


main()
