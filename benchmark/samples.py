#!/usr/bin/env python3
"""Prints the functions with the most samples of processor time, and the hottest instructions of the first ones: of the
program, and of one peer that does the same tasks. Samples are those of `perf record -e cpu-clock`, which needs no
hardware counters. Without perf the script says that it skips."""

import argparse
import os
import re
import shutil
import subprocess
import sys
import tempfile
from pathlib import Path

sys.dont_write_bytecode = True
from measure import SETTINGS, program_to_measure, row, with_tasks
from programs import ROOT, give_up, options_of

# Samples a second, and tasks of all clients: some seconds by one client.
FREQUENCY = 5_000
TASKS = 200_000
# A function is written as 'percent [.] name', an instruction as 'percent : address: text'.
FUNCTION = re.compile(r"\s*([0-9.]+)%\s+\[(.)\]\s+(.*\S)")
INSTRUCTION = re.compile(r"\s*([0-9.]+) :\s*([0-9a-f]+):\s+(.*\S)")
# Additions of a build to the name of a function: the number of an instance, and the arguments of a C++ function.
ADDED = re.compile(r"::<#[0-9a-f]+>|\(.*\)( const)?$")
# The function in which the target of a jump or a call lies.
TARGET = re.compile(r"\s*<.*>$")


def perf(*words):
    """The output of perf, or the end of the script if perf fails."""
    done = subprocess.run(["perf", *words], capture_output=True, text=True, check=False)
    if done.returncode != 0:
        give_up(f"perf {words[0]} ended with status {done.returncode}: {done.stderr[-300:]}")
    return done.stdout


def functions(data):
    """The share of each function, and its name, in descending order."""
    text = perf("report", "--stdio", "--no-children", "-F", "overhead,sym", "-i", data)
    return [(float(found[1]), found[3]) for found in map(FUNCTION.match, text.splitlines()) if found]


def instructions(data, function, most):
    """The instructions of a function with the most samples, each with its share of the function's samples."""
    text = perf("annotate", "--stdio", "-i", data, "-s", function)
    found = [(float(hit[1]), hit[2], hit[3]) for hit in map(INSTRUCTION.match, text.splitlines()) if hit]
    return sorted(found, reverse=True)[:most]


def sample(words, data):
    """Runs a load and records its samples into a file."""
    perf("record", "-e", "cpu-clock", "-F", str(FREQUENCY), "-o", data, "--", *map(str, words))


def short(name):
    """The name of a function without what the build adds."""
    return ADDED.sub("", name)


def show(title, data, top, deep):
    """Prints the functions of a program, and the hottest instructions of the first ones."""
    found = functions(data)[:top]
    print(f"## {title}\n\n{row(['%', 'function'])}\n|--:|---|")
    for share, name in found:
        print(row([f"{share:.1f}", f"`{short(name)}`"]))
    for share, name in found[:deep]:
        print(f"\n`{short(name)}`, {share:.1f} % of all samples; the shares of its instructions:\n\n```")
        for part, address, text in instructions(data, name, top):
            print(f"{part:6.1f}  {address}  {TARGET.sub('', text)}")
        print("```")
    print()


def peer_words(name, options):
    """The command of a peer that draws the tasks of a load itself."""
    folder = ROOT / "benchmark/out/peers"
    if subprocess.run([ROOT / "benchmark/build", folder, "--only", name], stdout=subprocess.DEVNULL).returncode != 0:
        give_up(f"the peer '{name}' could not be built")
    return [folder / name, "--draw", *options]


def read_arguments():
    parser = argparse.ArgumentParser(prog="./dev profile", description=__doc__)
    parser.add_argument("--only", default="crowded", choices=list(SETTINGS), metavar="SETTING",
                        help=f"one of {', '.join(SETTINGS)} (default: crowded)")
    parser.add_argument("--clients", type=int, default=1, metavar="N", help="clients (default: 1)")
    parser.add_argument("--tasks", type=int, default=TASKS, metavar="N",
                        help=f"tasks of all clients (default: {TASKS})")
    parser.add_argument("--against", default="tl2_sequential", metavar="PEER", help="the peer (default: tl2_sequential)")
    parser.add_argument("--program", metavar="FILE", help="the program (default: the one that ./vacation builds)")
    parser.add_argument("--top", type=int, default=15, metavar="N", help="functions and instructions (default: 15)")
    parser.add_argument("--deep", type=int, default=3, metavar="N",
                        help="functions of which instructions are printed (default: 3)")
    return parser.parse_args()


def main():
    arguments = read_arguments()
    if shutil.which("perf") is None:
        print("profile: skipped: perf is not installed")
        return
    program = program_to_measure(arguments.program)
    options = options_of(with_tasks(SETTINGS[arguments.only], arguments.clients, arguments.tasks))
    print(f"Samples of processor time: `{' '.join(options)}`; load average at the begin {os.getloadavg()[0]:.1f}\n")
    with tempfile.TemporaryDirectory() as folder:
        for title, words in ((Path(program).name, [program, "load", *options]),
                             (arguments.against, peer_words(arguments.against, options))):
            data = os.path.join(folder, "samples")
            sample(words, data)
            show(title, data, arguments.top, arguments.deep)


if __name__ == "__main__":
    main()
