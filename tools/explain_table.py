#!/usr/bin/env python3
"""Explains every wrong log that the tests can make, and prints a table: calls of the log, of the part and of the few
calls, the name, the seconds, and whether the program confirmed that they are illegal. The logs are the anomalies made
by hand (tests/anomalies), runs of the peers with a mistake (benchmark/mutants), SQLite with split transactions, and
the files of the command line."""

from __future__ import annotations

import argparse
import importlib.util
import statistics
import subprocess
import sys
import tempfile
import time
from collections import Counter
from collections.abc import Iterator
from dataclasses import dataclass
from itertools import chain
from pathlib import Path

ROOT = Path(__file__).resolve().parent.parent
sys.dont_write_bytecode = True
sys.path.insert(0, str(ROOT / "tools"))
from explaining.findings import Finding, findings
from explaining.history import Log
from explaining.program import MOST_BLOCKS, Program, is_illegal
from explaining.tasks import NEVER, read_call

MUTANTS = ROOT / "benchmark/mutants"
DATABASES = ROOT / "benchmark/databases/run"
# Nanoseconds for which a run goes on after its first wrong line.
BEYOND = 300_000
# The most contradictions of a log that are explained.
SHOWN = 12


@dataclass(frozen=True)
class Wrong:
    """A log that the program calls illegal, or leaves undecided."""
    name: str
    path: Path
    blocks: int


def stopped(lines: list[str], moment: int) -> list[str]:
    """The log of the run if it had been stopped at a moment: calls that ran then have not returned."""
    found = []
    for number, line in enumerate(lines, 1):
        call = read_call(number, line)
        if call.begin <= moment:
            running = call.end > moment and call.end < NEVER
            found.append(f"{call.client} {call.begin} - {call.task.line()} -> ?" if running else line)
    return found


def peers(program: Program, runs: int, folder: Path) -> Iterator[Wrong]:
    """Runs of each peer with a mistake, with pauses and without, that `judge` calls illegal in their order."""
    found = importlib.util.spec_from_file_location("mutants", MUTANTS / "try.py")
    mutants = importlib.util.module_from_spec(found)
    found.loader.exec_module(mutants)
    mutants.draw_tasks(program.path, runs, folder)
    for path in sorted(MUTANTS.glob("*.edit")):
        mutant = mutants.Mutant(path)
        binary = mutant.build(folder)
        for jitter in (False, True):
            for seed in range(1, runs + 1):
                lines = _history(mutants, binary, folder / f"tasks-{seed}", seed if jitter else None)
                log = folder / f"{mutant.name}-{'jitter' if jitter else 'plain'}-{seed}"
                if _is_wrong(program, lines, log, mutants.LOAD["blocks"]):
                    yield Wrong(f"peer {log.name}", log, mutants.LOAD["blocks"])


def _history(mutants, binary: Path, tasks: Path, jitter: int | None) -> list[str]:
    words = [binary, "--blocks", str(mutants.LOAD["blocks"]), "--tries", str(mutants.TRIES), "--patience",
             str(mutants.PATIENCE), "--history", *(["--jitter", str(jitter)] if jitter else [])]
    with open(tasks, "rb") as stdin:
        done = subprocess.run(words, stdin=stdin, capture_output=True, text=True, check=False,
                              preexec_fn=mutants.limit)
    return done.stdout.splitlines()


def _is_wrong(program: Program, lines: list[str], path: Path, blocks: int) -> bool:
    """Writes a log up to a moment after its first wrong line; returns whether no order of it is known to be right."""
    text = "".join(f"{line}\n" for line in lines)
    done = subprocess.run([program.path, "judge", "--blocks", str(blocks)], input=text, capture_output=True, text=True,
                          check=False)
    words = done.stdout.split("\n")[0].split(" ")
    if words[0] != "illegal" or len(words) < 3 or not words[2].isdecimal():
        return False
    moment = read_call(1, lines[int(words[2]) - 1]).end + BEYOND
    path.write_text("".join(f"{line}\n" for line in stopped(lines, moment)), encoding="ascii")
    return not program.judge_file(path, blocks)[1][0].startswith(("legal", "fault", "illegal client"))


def split(program: Program, runs: int, folder: Path) -> Iterator[Wrong]:
    """Runs of SQLite with each task in two transactions."""
    for seed in range(1, runs + 1):
        kept = folder / f"split-{seed}"
        subprocess.run([DATABASES, "sqlite:wal-full", "--fault", "none", "--mistake", "split", "--seed", str(seed),
                        "--seconds", "2", "--keep", kept, "--program", program.path],
                       stdin=subprocess.DEVNULL, capture_output=True, check=False)
        for path in kept.glob("*.calls"):
            if not program.judge_file(path, MOST_BLOCKS)[1][0].startswith("legal"):
                yield Wrong(f"SQLite split, seed {seed}", path, MOST_BLOCKS)


def row(log: Wrong, count: int, finding: Finding) -> str:
    return (f"| {log.name} | {count:,} | {finding.found.call.number} | {len(finding.found.part.calls):,} |"
            f" {len(finding.few.calls)} | {finding.kind.title()} | {finding.seconds:.2f} |"
            f" {'yes' if finding.is_confirmed else 'NO'} |")


def options() -> argparse.Namespace:
    parser = argparse.ArgumentParser(description=__doc__)
    parser.add_argument("logs", nargs="*", type=Path, help="further logs, judged with 262,144 blocks")
    parser.add_argument("--program", help="the program that judges (default: that of the last build)")
    parser.add_argument("--peers", type=int, default=2, metavar="N",
                        help="runs of each mistake of a peer (default: 2)")
    parser.add_argument("--split", type=int, default=4, metavar="N",
                        help="runs of SQLite with split tasks (default: 4)")
    return parser.parse_args()


def main() -> int:
    arguments = options()
    program = Program.find(ROOT, arguments.program)
    sys.setrecursionlimit(20_000)
    print("| Log | Calls | Wrong line | Part | Few | Kind | Seconds | Confirmed |\n|---|---|---|---|---|---|---|---|")
    all_found: list[Finding] = []
    unexplained = []
    with tempfile.TemporaryDirectory(prefix="explain-table-") as name:
        folder = Path(name)
        logs = [Wrong(path.stem, path, 1024) for path in sorted((ROOT / "tests/anomalies").glob("*.log"))]
        logs += [Wrong(path.name, path, MOST_BLOCKS) for path in arguments.logs]
        for log in chain(logs, split(program, arguments.split, folder), peers(program, arguments.peers, folder)):
            began = time.monotonic()
            _, verdict = program.judge_file(log.path, log.blocks)
            history = Log(log.path).history(verdict)
            explained, found = findings(history, log.blocks, program, most=SHOWN)
            for finding in explained:
                print(row(log, history.count, finding), flush=True)
            all_found += explained
            if not explained:
                unexplained.append(f"{log.name} ({verdict[0]}, {len(found)} found, {time.monotonic() - began:.1f} s)")
    _summary(all_found, unexplained)
    return 0


def _summary(found: list[Finding], unexplained: list[str]) -> None:
    sizes = [len(one.few.calls) for one in found]
    few = sum(size <= 10 for size in sizes)
    print(f"\n{len(found)} contradictions: {statistics.median(sizes):g} calls in the median, {few} of ten calls or"
          f" fewer ({100 * few / len(sizes):.0f} of 100), {max(sizes)} at most; {sum(map(is_confirmed, found))} confirmed.")
    kinds = Counter(one.kind.name for one in found)
    print("Kinds: " + ", ".join(f"{name} {count}" for name, count in kinds.most_common()) + ".")
    print(f"Logs without an explanation: {'; '.join(unexplained) or 'none'}.")


def is_confirmed(finding: Finding) -> bool:
    return all(map(is_illegal, finding.part_verdicts + finding.few_verdicts))


if __name__ == "__main__":
    sys.exit(main())
