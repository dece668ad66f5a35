#!/usr/bin/env python3
"""Runs loads of the program. What one client does is compared, byte for byte, with a small model of
the load and of the rules, which stands in model.py and tools/explaining, apart from the program. Of
several clients the tally must add up and the report must fit itself, over settings from calm to
crowded. Its argument is the program; with none it is the one that the last build left. With --long
it runs a hundred settings more, from calm to crowded."""

import os
import random
import subprocess
import sys
import tempfile

sys.dont_write_bytecode = True
from model import DEFAULTS, MASK, NAMES, opening, report_after, tasks_of

def expected(settings):
    """What a load of one client writes."""
    tasks = list(tasks_of(settings, 1))
    report = report_after([*opening(settings), *tasks], settings["blocks"])
    return f"answered {len(tasks)} busy 0 memory 0 spent 0\n{report}\n"


def run(program, settings, *more, **others):
    words = [program, "load"]
    for name, value in settings.items():
        words += [f"--{name}", str(value)]
    return subprocess.run(words + list(more), capture_output=True, text=True, timeout=300, **others)


FAILED = []


def want(holds, what):
    if not holds:
        FAILED.append(what)
        print(f"load: {what}", file=sys.stderr)


ALONE = [
    {"clients": 1},
    {"clients": 1, "tasks": 3, "items": 2, "user": 50},
    {"clients": 1, "tasks": 1000, "tries": 1},
    {"clients": 1, "tasks": 2000, "items": 2, "asks": 32, "user": 50, "seed": 7},
    {"clients": 1, "tasks": 3000, "items": 5, "asks": 3, "user": 90, "seed": 12, "blocks": 20},
    {"clients": 1, "tasks": 500, "items": 64, "asks": 8, "user": 0, "seed": MASK},
    {"clients": 1, "tasks": 500, "items": 9, "asks": 1, "user": 100, "seed": 3, "blocks": 40},
    {"clients": 1, "tasks": 1, "items": 1, "asks": 1, "user": 0, "seed": 0, "blocks": 4},
    {"clients": 1, "rounds": 2},
    {"clients": 1, "tasks": 7, "rounds": 100, "items": 3, "asks": 5, "user": 40, "seed": 21},
    {"clients": 1, "tasks": 300, "rounds": 9, "items": 6, "user": 70, "blocks": 25, "tries": 1},
    {"clients": 1, "tasks": 1, "rounds": 100, "items": 1, "asks": 1, "blocks": 5, "seed": MASK},
]

TOGETHER = [
    {},
    {"clients": 3, "tasks": 20, "rounds": 3},
    {"clients": 64, "tasks": 100},
    {"clients": 2, "tasks": 2000, "items": 1024, "blocks": 8192, "asks": 8, "user": 60},
    {"clients": 8, "tasks": 500, "items": 1, "asks": 2, "user": 70, "blocks": 8},
    {"clients": 4, "tasks": 500, "items": 2, "asks": 32, "user": 50, "tries": 1},
    {"clients": 4, "tasks": 100, "rounds": 10, "items": 3, "asks": 6, "tries": 2},
    {"clients": 64, "tasks": 5, "rounds": 20, "items": 128, "blocks": 700, "user": 60},
]


def ladder():
    """A hundred settings: over each tenth of them the items grow fewer, the lists longer and the
    tries scarcer, so that the clients meet more and more."""
    draws, steps = random.Random(2026), []
    for step in range(100):
        crowd = step % 10
        items = max(1, 2000 >> crowd)
        steps.append({
            "clients": (1, 2, 4, 8, 64)[draws.randrange(5)],
            "tasks": draws.randrange(1, 400),
            "rounds": (1, 2, 3, 10)[draws.randrange(4)],
            "items": items,
            "asks": min(32, 1 + crowd * 3 + draws.randrange(4)),
            "user": draws.randrange(101),
            "seed": draws.randrange(1 << 64),
            "blocks": 4 * items + draws.randrange(1 + 12 * items),
            "tries": (1, 4, 64)[draws.randrange(3)],
        })
    return steps


def alone(program, settings):
    done = run(program, settings)
    want((done.returncode, done.stdout, done.stderr) == (0, expected(DEFAULTS | settings), ""),
         f"one client, {settings}: {done.returncode}, {done.stdout!r}")


def together(program, settings):
    """The tally of a load of several clients."""
    done = run(program, settings)
    lines = done.stdout.splitlines()
    if done.returncode != 0 or len(lines) != 2:
        want(False, f"{settings}: {done.returncode}, {done.stdout!r}")
        return {}
    words, whole = lines[0].split(" "), DEFAULTS | settings
    tally = dict(zip(words[::2], map(int, words[1::2])))
    tasks = whole["rounds"] * whole["clients"] * whole["tasks"]
    want(list(tally) == ["answered", "busy", "memory", "spent"], f"{settings}: {lines[0]}")
    want(sum(tally.values()) == tasks, f"{settings}: {lines[0]}, of {tasks}")
    want(tally["memory"] == 0 and tally["spent"] == 0, f"{settings}: {lines[0]}")
    report = {name: int(value) for name, value in (w.split("=") for w in lines[1].split(" "))}
    want(list(report) == NAMES, f"{settings}: {lines[1]}")
    want(report["used"] == report["bookings"], f"{settings}: {lines[1]}")
    want(report["used"] + report["free"] == report["total"], f"{settings}: {lines[1]}")
    entries = sum(report[name] for name in ("cars", "flights", "rooms", "customers"))
    want(entries <= whole["blocks"], f"{settings}: {lines[1]}")
    want(report["customers"] <= whole["items"], f"{settings}: {lines[1]}")
    want(done.stderr == "", f"{settings}: standard error has {done.stderr!r}")
    return tally


def climb(program):
    """Runs the ladder, and answers how many of its tasks were answered and how many were busy."""
    answered = busy = 0
    for settings in ladder():
        if settings["clients"] == 1:
            alone(program, settings)
            continue
        tally = together(program, settings)
        answered, busy = answered + tally.get("answered", 0), busy + tally.get("busy", 0)
    return answered, busy


# A library that stands before the threads and refuses the call with the number REFUSE.
REFUSER = """
#include <dlfcn.h>
#include <errno.h>
#include <pthread.h>
#include <stdlib.h>
static long calls;
int pthread_create(pthread_t *t, const pthread_attr_t *a, void *(*f)(void *), void *x) {
    int (*make)(pthread_t *, const pthread_attr_t *, void *(*)(void *), void *);
    *(void **)&make = dlsym(RTLD_NEXT, "pthread_create");
    return ++calls == atol(getenv("REFUSE")) ? EAGAIN : make(t, a, f, x);
}
"""


def threads_refused(program):
    """A thread of a client that is refused is a fault. The thread that tells how far a load is, and is
    the first one, is none: nothing is told then."""
    alone, fault = {"clients": 1, "tasks": 20}, (1, "fault spawn\n")
    done = (0, expected(DEFAULTS | alone))
    with tempfile.TemporaryDirectory() as folder:
        library = os.path.join(folder, "refuse.so")
        subprocess.run(["cc", "-shared", "-fPIC", "-O1", "-D_GNU_SOURCE", "-o", library, "-x", "c", "-"],
                       input=REFUSER, text=True, check=True)
        for settings, more, number, right in [
            ({}, [], 1, fault), ({}, [], 3, fault), ({"rounds": 3, "tasks": 2}, [], 6, fault),
            (alone, ["--progress"], 1, done), (alone, ["--progress"], 2, fault),
        ]:
            found = run(program, settings, *more,
                        env=os.environ | {"LD_PRELOAD": library, "REFUSE": str(number)})
            want((found.returncode, found.stdout) == right,
                 f"{settings} {more}, thread {number} refused: {found.returncode}, {found.stdout!r}")


def main():
    here = os.path.dirname(os.path.realpath(__file__))
    program = os.path.join(here, "../crates/vacation/out/vacation")
    words = [word for word in sys.argv[1:] if word != "--long"]
    if words:
        program = words[0]
    if not os.access(program, os.X_OK):
        sys.exit(f"load: there is no program at {program}: './vacation' builds it")
    for settings in ALONE:
        alone(program, settings)
    for settings in TOGETHER:
        together(program, settings)
    threads_refused(program)
    if "--long" in sys.argv[1:]:
        answered, busy = climb(program)
        print(f"load: a hundred settings more; of several clients' tasks {answered} answered, {busy} busy")
    print(f"load: {len(ALONE)} loads of one client and {len(TOGETHER)} of several, {len(FAILED)} failed")
    sys.exit(1 if FAILED else 0)


main()
