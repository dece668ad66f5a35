"""The command `explain`."""

from __future__ import annotations

import argparse
import os
import shutil
import sys
import tempfile
import textwrap
from pathlib import Path

from .findings import Finding, findings
from .history import History, Log
from .other_formats import other_format
from .program import MOST_BLOCKS, NoProgram, Program, opening_tasks
from .tasks import BadLine
from .text import WIDTH, explanation

ROOT = Path(__file__).resolve().parent.parent.parent
LEGAL, ILLEGAL, USAGE, UNDECIDED = 0, 1, 2, 3

DESCRIPTION = """Explains why a history is illegal: which calls contradict each other, what the anomaly is called,
which isolation levels allow it, and the smallest run that shows it. Each claim that calls are illegal is confirmed by
'judge history'."""
STATUSES = """Status: 0 if the history is legal, 1 if it is illegal or damaged, 3 if the judge did not decide and no
contradiction was found, 2 if the command line was refused, 4 after a fault of a stream or of memory."""


def _count(word: str) -> int:
    if not word.isdecimal() or not 1 <= int(word) <= MOST_BLOCKS:
        raise argparse.ArgumentTypeError(f"a number from 1 to {MOST_BLOCKS} is wanted")
    return int(word)


def _options(words: list[str]) -> argparse.Namespace:
    parser = argparse.ArgumentParser(prog="explain", description=DESCRIPTION, epilog=STATUSES)
    parser.add_argument("log", metavar="LOG", help="the history; '-' for standard input")
    parser.add_argument("--html", type=Path, metavar="FILE", help="write a page with a picture")
    parser.add_argument("--svg", type=Path, metavar="FILE", help="write the picture alone")
    parser.add_argument("--small", type=Path, metavar="FILE",
                        help="write the few calls as a history that the judge calls illegal")
    parser.add_argument("--work", type=Path, metavar="FILE",
                        help="write the tasks of the few calls, to be run again")
    parser.add_argument("--blocks", type=_count, default=1024, metavar="N",
                        help="number of blocks, as for the judge (default: 1024)")
    parser.add_argument("--program", metavar="P", help="the program that judges (default: that of the last build)")
    parser.add_argument("--verdict", type=Path, metavar="FILE",
                        help="what 'judge history' wrote about the log (default: it is asked)")
    parser.add_argument("--all", action="store_true", help="look for all contradictions of a large log")
    return parser.parse_args(words)


def _work(finding: Finding, history: History) -> list[str]:
    """The state before as tasks of client 0, then the tasks of the few calls as the log has them."""
    calls = sorted((history.by_number[number] for number in finding.numbers),
                   key=lambda call: (call.client, call.begin))
    return [f"0 {task}" for task in opening_tasks(finding.few.openings[0])] + [
        f"{call.client} {call.task.line()}" for call in calls]


def _write(options: argparse.Namespace, explained: list[Finding], history: History, verdict: list[str]) -> list[str]:
    """Writes the files that were asked for, and returns a line that names them."""
    finding, texts = explained[0], {}
    if options.small:
        texts[options.small] = "\n".join(finding.logs()[0]) + "\n"
    if options.work:
        texts[options.work] = "\n".join(_work(finding, history)) + "\n"
    if options.html or options.svg:
        from .page import page
        from .picture import picture
        if options.svg:
            texts[options.svg] = picture(finding, history)
        if options.html:
            texts[options.html] = page(explained, history, verdict, options.log)
    for path, text in texts.items():
        path.write_text(text, encoding="utf-8")
    return [f"written: {', '.join(map(str, texts))}"] if texts else []


def read_verdict(options: argparse.Namespace) -> tuple[int, list[str]]:
    """The verdict of the command line, with the judge's status."""
    verdict = options.verdict.read_text(encoding="ascii").splitlines() or ["undecided"]
    statuses = {"legal": LEGAL, "undecided": UNDECIDED}
    return statuses.get(verdict[0].split(" ")[0], ILLEGAL), verdict


def order_of_lines(verdict: str) -> list[str]:
    """What the order of the lines of a legal history says, if it is not a legal one itself."""
    if verdict.startswith("legal"):
        return []
    return [f"legal in another order; in the order of its lines: {verdict}",
            *textwrap.wrap("If the lines claim an order, as that of tm_place, then that order is wrong; or the runtime"
                           " is wrong, and this history does not show it. If they claim none, as those of a"
                           " database, this says nothing.", WIDTH, initial_indent="  ", subsequent_indent="  ")]


def _explain(options: argparse.Namespace, path: Path) -> int:
    program = Program.find(ROOT, options.program)
    status, verdict = program.judge_file(path, options.blocks) if options.verdict is None else read_verdict(options)
    if verdict[0].startswith("legal"):
        print("\n".join([verdict[0], *order_of_lines(program.judge_lines(path, options.blocks))]))
        return status
    if not verdict[0].startswith(("illegal order", "illegal part", "undecided")):
        print("\n".join([verdict[0], *other_format(verdict[0], path)]))
        return status
    history = Log(path).history(verdict, options.all)
    explained, found = findings(history, options.blocks, program, path)
    if not explained:
        print(f"{verdict[0]}\nNo few calls were found that contradict each other"
              + (", and the log has no times." if not history.has_times() else "."))
        return status
    written = _write(options, explained, history, verdict)
    print(explanation(explained, history, verdict, len(found) - 1, written), flush=True)
    return ILLEGAL


def main(words: list[str]) -> int:
    options = _options(words)
    sys.setrecursionlimit(20_000)
    try:
        if options.log != "-":
            return _explain(options, Path(options.log))
        with tempfile.TemporaryDirectory(prefix="explain-") as folder:
            path = Path(folder) / "log"
            with open(path, "wb") as file:
                shutil.copyfileobj(sys.stdin.buffer, file)
            return _explain(options, path)
    except BrokenPipeError:
        os.dup2(os.open(os.devnull, os.O_WRONLY), sys.stdout.fileno())
        return ILLEGAL
    except (OSError, NoProgram) as fault:
        print(f"explain: {fault}", file=sys.stderr)
        return USAGE
    except BadLine as line:
        print(f"explain: {line} is no call that this script knows", file=sys.stderr)
        return ILLEGAL
