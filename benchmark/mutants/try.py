#!/usr/bin/env python3
"""Finds out how soon classic mistakes of transactional memories are called: each .edit beside this
script is made in a copy of a peer, which then runs one load after the other until its history is
called illegal, or it crashes or stands still; and the same of its attempts, where the program
judges these; all that with and without pauses between its steps (--jitter). Prints a table in
Markdown: the run in which it was called, and how many calls or attempts there had been."""

import argparse
import os
import resource
import shutil
import subprocess
import sys
import tempfile
from concurrent.futures import ThreadPoolExecutor
from pathlib import Path

sys.path.insert(0, str(Path(__file__).resolve().parent.parent))
from programs import judge_beside

HERE = Path(__file__).resolve().parent
PEERS = HERE.parent / "peers"
ROOT = HERE.parent.parent
# The program, where a clone has it once it is built, or the unpacked tarball.
PROGRAM = ROOT / ("crates/vacation/out/vacation" if (ROOT / "crates.txt").exists() else "vacation")
# Few items and long tasks: clients meet often. The options of `vacation tasks` may be given others (--work).
LOAD = {"clients": 4, "tasks": 1000, "items": 8, "asks": 6, "user": 60, "blocks": 256}
# The loads of the page's table: `vacation tasks` with its own options but these.
BLOCKS = 1024
PAGE = [{}, {"tasks": 1000, "items": 8}, {"tasks": 20000, "items": 8}]
TRIES, PATIENCE = 100_000, 10
STOOD = "stood still"
# How a short cell says that the peer ended by itself, in place of a verdict.
MARKS = {STOOD: "*", "crashed": "†"}
# A runtime that has lost its way may log reads without end.
MOST_MEMORY = 3 << 30
COMPILERS = 2
FLAGS = os.environ.get("CXXFLAGS", "-O2").split()


class Mutant:
    """The lines of an edit: the peer, its file, and pairs of lines, old and new."""

    def __init__(self, path):
        fields = [line.split(": ", 1) for line in path.read_text(encoding="utf-8").splitlines()]
        self.name = path.stem
        self.peer, self.file = (next(text for key, text in fields if key == wanted) for wanted in ("peer", "file"))
        self.pairs = list(zip([text for key, text in fields if key == "old"],
                              [text for key, text in fields if key == "new"]))

    def text(self):
        """The file with the mistake in it."""
        lines = (PEERS / self.file).read_text(encoding="utf-8").splitlines()
        for old, new in self.pairs:
            places = [i for i, line in enumerate(lines) if line.strip() == old]
            if len(places) != 1:
                sys.exit(f"mutants: {self.name}: '{old}' stands {len(places)} times in {self.file}")
            lines[places[0]] = new
        return "\n".join(lines) + "\n"

    def build(self, folder):
        sources = folder / self.name
        shutil.copytree(PEERS, sources)
        (sources / self.file).write_text(self.text(), encoding="utf-8")
        program = folder / f"{self.name}.out"
        words = [os.environ.get("CXX", "g++"), "-std=c++17", *FLAGS, "-w", "-pthread",
                 sources / f"{self.peer}.cpp", "-o", program]
        subprocess.run(words, check=True)
        return program


def limit():
    resource.setrlimit(resource.RLIMIT_AS, (MOST_MEMORY, MOST_MEMORY))
    resource.setrlimit(resource.RLIMIT_CORE, (0, 0))


class Trial:
    """Runs of one kind: whether histories or attempts are judged, and with pauses or without."""

    def __init__(self, program, load, mode, jitters, arguments):
        self.judges, self.mode, self.jitters = judge_beside(program), mode, jitters
        self.blocks, self.runs, self.patience = load.get("blocks", BLOCKS), arguments.runs, arguments.patience

    def judge(self, lines, tasks):
        """What is wrong with the lines, or nothing, and how many were looked at until then."""
        if self.mode == "--attempts":
            words = [self.judges, "attempts", "--words", str(16 + 8 * self.blocks)]
        else:
            words = [self.judges, "history", "--given-order", "--blocks", str(self.blocks), "--tasks", tasks]
        done = subprocess.run(words, input=lines, capture_output=True, text=True)
        verdict = done.stdout.split("\n")[0].split(" ")
        count = lines.count("\n")
        if done.returncode == 0:
            return None, count
        is_line = verdict[1] != "missing" and len(verdict) > 2 and verdict[2].isdigit()
        return " ".join(verdict[:2]), int(verdict[2]) if is_line else count

    def run(self, mutant, tasks, seed):
        """What was wrong with a run, or nothing, and how many lines were looked at until then."""
        jitter = ["--jitter", str(seed)] if self.jitters else []
        words = [mutant, "--blocks", str(self.blocks), "--tries", str(TRIES), "--patience", str(self.patience),
                 self.mode, *jitter]
        with open(tasks, "rb") as stdin:
            done = subprocess.run(words, stdin=stdin, capture_output=True, text=True, preexec_fn=limit)
        wrong, count = self.judge(done.stdout, tasks)
        if done.returncode != 0 and (wrong is None or "missing" in wrong):
            wrong = STOOD if done.returncode == 3 else "crashed"
        return wrong, count

    def find(self, mutant, folder):
        """The first run in which something was wrong, or nothing; how many lines there had been; what was wrong."""
        count = 0
        for seed in range(1, self.runs + 1):
            wrong, lines = self.run(mutant, folder / f"tasks-{seed}", seed)
            count += lines
            if wrong:
                return seed, count, wrong
        return None, count, None

    def cell(self, mutant, folder):
        seed, count, wrong = self.find(mutant, folder)
        return f"run {seed}, {count:,}: {wrong}" if seed else f"not in {self.runs} runs, {count:,}"

    def short_cell(self, mutant, folder):
        seed, _, wrong = self.find(mutant, folder)
        return f"{seed}{MARKS.get(wrong, '')}" if seed else "not"


def draw_tasks(program, load, runs, folder):
    options = [word for name, value in load.items() for word in (f"--{name}", str(value))]
    for seed in range(1, runs + 1):
        with open(folder / f"tasks-{seed}", "wb") as output:
            subprocess.run([program, "tasks", *options, "--seed", str(seed)], stdout=output, check=True)


def build_all(mutants, folder):
    """The programs of the mutants, in the folder, where those that are there already stay."""
    built = [folder / f"{mutant.name}.out" for mutant in mutants]
    if all(program.exists() for program in built):
        return built
    with ThreadPoolExecutor(COMPILERS) as compilers:
        return list(compilers.map(lambda mutant: mutant.build(folder), mutants))


def read_load(text):
    """The options NAME=NUMBER,.. over those of the load."""
    given = dict(part.split("=") for part in text.split(",")) if text else {}
    if not given.keys() <= LOAD.keys():
        raise ValueError(text)
    return LOAD | {name: int(value) for name, value in given.items()}


def read_arguments():
    parser = argparse.ArgumentParser(prog="try.py", description=__doc__)
    parser.add_argument("--program", type=Path, default=PROGRAM, help="the program that judges")
    parser.add_argument("--runs", type=int, default=20, help="the most runs of each kind (default: 20)")
    parser.add_argument("--patience", type=int, default=PATIENCE, metavar="SECONDS",
                        help=f"how long no call may end before a peer is said to stand still (default: {PATIENCE})")
    parser.add_argument("--page", action="store_true",
                        help="prints the table of docs/MEASURED.md: histories of three loads, the run alone")
    parser.add_argument("--only", action="append", metavar="NAME", help="one of the edits")
    parser.add_argument("--work", type=read_load, default="", metavar="NAME=N,..",
                        help=f"options of the drawn tasks, in the place of {LOAD}")
    parser.add_argument("--built", type=Path, metavar="FOLDER", help="where --build has built the edits")
    parser.add_argument("--histories", action="store_true", help="judges no attempts")
    parser.add_argument("--build", type=Path, metavar="FOLDER",
                        help="builds each edit into a folder, as NAME.out, and runs none")
    parser.add_argument("--check", action="store_true", help="looks whether each edit can be made, and runs none")
    return parser.parse_args()


def print_page(arguments, mutants, folder):
    """Prints the table of the page: for each load the run, without pauses and with them."""
    folders, trials = [], []
    for number, load in enumerate(PAGE):
        folders.append(folder / str(number))
        folders[-1].mkdir()
        draw_tasks(arguments.program, load, arguments.runs, folders[-1])
        trials.append([Trial(arguments.program, load, "--history", jitters, arguments) for jitters in (False, True)])
    heads = [" ".join(f"--{name} {value}" for name, value in load.items()) or "none" for load in PAGE]
    print(f"| Mistake (peer) | {' | '.join(heads)} |\n|---|{'---|' * len(heads)}", flush=True)
    for mutant, program in zip(mutants, build_all(mutants, arguments.built or folder)):
        cells = [", ".join(trial.short_cell(program, at) for trial in pair) for at, pair in zip(folders, trials)]
        print(f"| {mutant.name} ({mutant.peer}) | {' | '.join(cells)} |", flush=True)


def main():
    arguments = read_arguments()
    mutants = [Mutant(path) for path in sorted(HERE.glob("*.edit"))
               if not arguments.only or path.stem in arguments.only]
    if arguments.check:
        print(f"mutants: {len([mutant.text() for mutant in mutants])} edits can be made")
        return
    if arguments.build:
        build_all(mutants, arguments.build)
        return
    if arguments.page:
        with tempfile.TemporaryDirectory() as name:
            print_page(arguments, mutants, Path(name))
        return
    modes = ["--history"] + ([] if arguments.histories else ["--attempts"])
    trials = [Trial(arguments.program, arguments.work, mode, jitters, arguments)
              for mode in modes for jitters in (False, True)]
    heads = [("history" if trial.mode == "--history" else "attempts") + (", jitter" if trial.jitters else "")
             for trial in trials]
    print(f"| Mistake | Peer | {' | '.join(heads)} |\n|---|---|{'---|' * len(heads)}", flush=True)
    with tempfile.TemporaryDirectory() as name:
        folder = Path(name)
        draw_tasks(arguments.program, arguments.work, arguments.runs, folder)
        built = build_all(mutants, arguments.built or folder)
        for mutant, program in zip(mutants, built):
            cells = [trial.cell(program, folder) for trial in trials]
            print(f"| {mutant.name} | {mutant.peer} | {' | '.join(cells)} |", flush=True)


if __name__ == "__main__":
    main()
