#!/usr/bin/env python3
"""Runs loads of the program that write their attempts ('--attempts'), and lets the judge judge
them: they are opaque, as many committed as calls of the opening and tasks were answered, and each
client's stand in their place. Of loads whose clients meet, some attempts were given up after they
had read, and some calls stayed busy. Its times are those of a clock that runs while the load does.
A load reports the same with them as without. A text with one value changed, that a committed or a
given-up attempt read, is not opaque. Its argument is the program; with none it is the one that the
last build left."""

import re
import subprocess
import sys
import time

import built

LINE = re.compile(r"[0-9]+ [0-9]+ [0-9]+ (commit|abort)( [rw] [0-9]+ [0-9]+)*")
READ = re.compile(r"(.* r [0-9]+ )([0-9]+)((?: w [0-9]+ [0-9]+)*)")
TOLD = re.compile(r"answered ([0-9]+) busy ([0-9]+) memory 0 spent 0\n[^\n]*\n")
TRIED = re.compile(r" attempts ([0-9]+) ")
STATS = re.compile(r"seconds [^\n]*\n")
FAILED = []
BUSY = []
# Loads whose audits read whole tables, with the bytes that the longest line has at least.
LONG = [
    ({"clients": 1, "tasks": 300, "items": 2048, "reads": 100, "blocks": 16384}, 400_000),
    ({"clients": 1, "tasks": 150, "items": 16384, "reads": 100, "blocks": 131072}, 3_000_000),
]

# A load with one question, and its attempts with the times 0, by hand from the layout of the words: the roots are words
# 1 to 4, the heads of the free lists words 8 to 15, and the blocks of eight words start at word 16, one in each of the
# first four lists. An item takes its block from the first list that has one. The task asks for the free units of the
# flight, which are the sixth word of its block.
ONE_QUESTION = {"clients": 1, "tasks": 1, "items": 1, "reads": 100, "user": 50, "blocks": 4}
ITS_ATTEMPTS = """\
0 0 0 commit w 8 16 w 9 24 w 10 32 w 11 40
0 0 0 commit r 1 0 r 8 16 r 16 0 w 8 0 w 16 1 w 20 0 w 21 300 w 22 300 w 23 80 r 1 0 w 17 0 \
w 18 0 w 19 1 w 1 16 w 19 0
0 0 0 commit r 2 0 r 8 0 r 9 24 r 24 0 w 9 0 w 24 1 w 28 0 w 29 200 w 30 200 w 31 90 r 2 0 \
w 25 0 w 26 0 w 27 1 w 2 24 w 27 0
0 0 0 commit r 3 0 r 8 0 r 9 0 r 10 32 r 32 0 w 10 0 w 32 1 w 36 0 w 37 400 w 38 400 w 39 90 \
r 3 0 w 33 0 w 34 0 w 35 1 w 3 32 w 35 0
0 0 0 commit r 4 0 r 8 0 r 9 0 r 10 0 r 11 40 r 40 0 w 11 0 w 40 1 w 44 0 r 45 0 r 46 0 \
r 47 0 r 4 0 w 41 0 w 42 0 w 43 1 w 4 40 w 43 0
1 0 0 commit r 2 24 r 24 1 r 29 200
"""

LOADS = [
    {"tasks": 200, "items": 16},
    {"tasks": 100, "items": 256, "user": 90, "reads": 50, "blocks": 16384},
    {"tasks": 50, "items": 2, "blocks": 40, "tries": 3, "rounds": 5},
]


def want(holds, what):
    if not holds:
        FAILED.append(what)
        print(f"attempts: {what}", file=sys.stderr)


def run(program, settings, *more):
    words = [word for name, value in settings.items() for word in (f"--{name}", str(value))]
    return subprocess.run([program, "load", *words, *more], capture_output=True, text=True,
                          timeout=300)


def judge(program, settings, text):
    words = str(8 * settings.get("blocks", 1024) + 16)
    return subprocess.run([built.judge(program), "attempts", "--words", words], input=text,
                          capture_output=True, text=True, timeout=300)


def laid(lines):
    """How many lines lay the words that the system begins with: they write at time 0."""
    return sum(1 for line in lines if line.startswith("0 0 0 commit w ") and " r " not in line)


def look_at_words(settings, first):
    """The first lines lay the words of the heap that are not 0, one for each block, in the order of
    their addresses."""
    addresses = [int(address) for line in first for address in re.findall(r" w (\d+) ", line)]
    want(laid(first) == len(first), f"{settings}: a line before those that lay the words")
    want(addresses == sorted(set(addresses)), f"{settings}: the words are not in their order")
    want(len(addresses) == settings.get("blocks", 1024), f"{settings}: {len(addresses)} words")


def look_at_times(settings, heads, nanos):
    """No attempt ends before it begins, most take time, none longer than the run did, and none of a
    client begins before the opening is over."""
    want(all(begin <= end for _, begin, end in heads), f"{settings}: an end before its beginning")
    long = sum(begin < end for _, begin, end in heads)
    want(2 * long > len(heads), f"{settings}: {long} attempts of {len(heads)} take time")
    last = max(end for _, _, end in heads)
    want(last < nanos, f"{settings}: the last attempt ends at {last}, in a run of {nanos}")
    opened = max(end for client, _, end in heads if client == 0)
    first = min(begin for client, begin, _ in heads if client > 0)
    want(0 < opened <= first, f"{settings}: a client begins at {first}, the opening ends at {opened}")


def look_at(program, settings, *more):
    began = time.monotonic_ns()
    done = run(program, settings, "--attempts", "--stats", *more)
    nanos = time.monotonic_ns() - began
    rest = "".join(line + "\n" for line in STATS.sub("", done.stderr).splitlines()
                   if " of " not in line)
    told = TOLD.fullmatch(rest)
    want(done.returncode == 0 and told, f"{settings}: {done.returncode}, {done.stderr!r}")
    if not told:
        return None
    lines = done.stdout.splitlines()
    want(all(map(LINE.fullmatch, lines)), f"{settings}: a line that is none of an attempt")
    verdict = judge(program, settings, done.stdout)
    answered = 4 * settings["items"] + int(told[1])
    wanted = (f"opaque attempts={len(lines)} committed={laid(lines) + answered} "
              f"clients={settings['clients'] + 1}\n")
    want((verdict.returncode, verdict.stdout) == (0, wanted), f"{settings}: {verdict}, {wanted!r}")
    # the opening's attempts are those of client 0
    heads = [tuple(map(int, line.split(" ", 3)[:3])) for line in lines]
    opened = sum(client == 0 for client, _, _ in heads)
    want(opened == laid(lines) + 4 * settings["items"], f"{settings}: {opened} of client 0")
    want(all(client <= settings["clients"] for client, _, _ in heads), f"{settings}: a client")
    look_at_words(settings, lines[:laid(lines)])
    look_at_times(settings, heads[laid(lines):], nanos)
    BUSY.append(int(told[2]))
    # the attempts that it counted are those that it wrote
    tried = int(TRIED.search(done.stderr)[1])
    wrote = sum(not line.startswith("0 ") for line in lines)
    want(tried == wrote, f"{settings}: {tried} attempts are told, {wrote} written")
    return lines


def damaged(program, settings, lines, outcome):
    """The last value that some attempt of this outcome read is changed."""
    place = max((k for k, line in enumerate(lines) if f" {outcome} " in line and " r " in line),
                default=None)
    if place is None:
        return
    front, value = READ.fullmatch(lines[place]).group(1, 2)
    back = lines[place][len(front) + len(value):]
    changed = lines[:place] + [f"{front}{int(value) ^ 1}{back}"] + lines[place + 1:]
    verdict = judge(program, settings, "".join(line + "\n" for line in changed))
    want(verdict.returncode == 1 and verdict.stdout.startswith(f"illegal read {place + 1} "),
         f"{settings}, damaged: {verdict}")


def look_at_one_question(program):
    """The whole text of a small load, but for its times."""
    done = run(program, ONE_QUESTION, "--attempts", "--stats")
    text = re.sub(r"^([0-9]+) [0-9]+ [0-9]+ ", r"\1 0 0 ", done.stdout, flags=re.M)
    want(text == ITS_ATTEMPTS and TRIED.search(done.stderr)[1] == "1", f"{ONE_QUESTION}: {text!r}, {done.stderr!r}")


def look_at_long_lines(program):
    """An attempt that reads all words of a table is a line that the judge takes."""
    for settings, least in LONG:
        done = run(program, settings, "--attempts")
        longest = max(map(len, done.stdout.splitlines()))
        want(longest >= least, f"{settings}: the longest line has {longest} bytes")
        verdict = judge(program, settings, done.stdout)
        want(verdict.returncode == 0, f"{settings}: {verdict}")


def main():
    program = built.vacation()
    given_up = 0
    for options in LOADS:
        for clients in (1, 4, 64):
            settings = options | {"clients": clients}
            lines = look_at(program, settings)
            if lines:
                damaged(program, settings, lines, "commit")
                damaged(program, settings, lines, "abort")
                aborts = sum(" abort" in line for line in lines)
                want(clients > 1 or aborts == 0, f"{settings}: {aborts} attempts of one client")
                given_up += sum(" abort r " in line for line in lines)
    want(given_up > 0, "no attempt of any load was given up after it had read")
    want(sum(BUSY) > 0, "no call of any load stayed busy")
    look_at_long_lines(program)
    look_at_one_question(program)
    look_at(program, {"clients": 2, "tasks": 500, "items": 16}, "--progress")
    alone = {"clients": 1, "tasks": 300}
    plain, traced = run(program, alone), run(program, alone, "--attempts")
    want(plain.stdout == traced.stderr, f"one client reports {plain.stdout!r}, {traced.stderr!r}")
    both = run(program, {"clients": 1}, "--attempts", "--history")
    want((both.returncode, both.stdout) == (2, ""), f"with a history: {both}")
    short = run(program, {"clients": 1, "items": 300}, "--attempts")
    want((short.returncode, short.stdout) == (2, "fault arguments\n"), f"{short}")
    print(f"attempts: {len(FAILED)} failed")
    return 1 if FAILED else 0


if __name__ == "__main__":
    sys.exit(main())
