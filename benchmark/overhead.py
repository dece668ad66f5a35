#!/usr/bin/env python3
"""Counts what the C interface of include/vacation_tm.h costs: the instructions of a task, by valgrind's
callgrind, of one TL2 that is compiled into its peer and of the same one as a shared object that `peer`
loads. Each setting is run with two numbers of tasks by one client; the difference has no opening in it.
Prints a table in Markdown. Instructions do not depend on what else the machine does."""

import os
import re
import subprocess
import sys
import tempfile
from pathlib import Path

sys.dont_write_bytecode = True
HERE = Path(__file__).resolve().parent
sys.path.insert(0, str(HERE))
from measure import SETTINGS
from programs import options_of

FEW, MANY = 1_000, 11_000
FLAGS = ["-std=c++17", "-O3", "-pthread", "-I", HERE.parent / "include"]


def build(folder):
    """The commands of the two programs: TL2 in its peer, and by the interface."""
    cxx, peers = os.environ.get("CXX", "g++"), HERE / "peers"
    for words in ([cxx, *FLAGS, peers / "tl2.cpp", "-o", folder / "tl2"],
                  [cxx, *FLAGS, "-rdynamic", peers / "peer.cpp", "-o", folder / "peer", "-ldl"],
                  [cxx, *FLAGS, "-fPIC", "-shared", peers / "tl2_object.cpp", "-o", folder / "tl2.so"]):
        subprocess.run(words, check=True)
    return {"TL2 in its peer": [folder / "tl2"], "the same as an object": [folder / "peer", folder / "tl2.so"]}


def instructions(command, options, tasks):
    """The instructions of a run, in all its processes."""
    words = ["valgrind", "--tool=callgrind", "--callgrind-out-file=/dev/null", *command, "--draw", "--patience",
             "3600", "--clients", "1", "--tasks", str(tasks), *options_of(options)]
    done = subprocess.run(words, capture_output=True, text=True, check=True)
    return sum(int(count) for count in re.findall(r"Collected : (\d+)", done.stderr))


def main():
    with tempfile.TemporaryDirectory() as name:
        commands = build(Path(name))
        print("| Setting | " + " | ".join(commands) + " |\n|---|" + "--:|" * len(commands))
        for setting, options in SETTINGS.items():
            counts = [(instructions(command, options, MANY) - instructions(command, options, FEW)) / (MANY - FEW)
                      for command in commands.values()]
            cells = [f"{counts[0]:,.0f}"] + [f"{count:,.0f} ({count / counts[0] - 1:+.0%})" for count in counts[1:]]
            print(f"| `{setting}` | " + " | ".join(cells) + " |", flush=True)


if __name__ == "__main__":
    main()
