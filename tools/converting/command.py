"""The command `convert`."""

from __future__ import annotations

import argparse
import os
import re
import shutil
import subprocess
import sys
from pathlib import Path

from .calls import Call, Fault, Options, Report, fits, in_order, is_whole, line_of, with_first_values
from .jepsen import jepsen_calls
from .jsonlines import json_calls, porcupine_calls

ROOT = Path(__file__).resolve().parent.parent.parent
LEGAL, NOT_LEGAL, BROKEN, UNDECIDED = 0, 1, 2, 3
FORMATS = {"jepsen": jepsen_calls, "json": json_calls, "porcupine": porcupine_calls}
DESCRIPTION = """Turns a foreign history of a key-value store into the lines that 'judge keys' reads. What was
counted, skipped and assumed stands on standard error."""
STATUSES = """Status: 0 if all was converted (with --judge: if the history is legal), 1 if a line of the file is a fault
(with --judge: if the history is not legal), 2 if the command line was refused, or a file or the judge failed,
3 if the judge found neither."""


class NoProgram(Exception):
    """There is no program that judges."""


def _options(words: list[str]) -> argparse.Namespace:
    parser = argparse.ArgumentParser(prog="convert", description=DESCRIPTION, epilog=STATUSES)
    parser.add_argument("format", choices=FORMATS, help="the format of the file")
    parser.add_argument("file", metavar="FILE", help="the history; '-' for standard input")
    parser.add_argument("--judge", action="store_true",
                        help="judge the history; the verdict names lines of the given file")
    parser.add_argument("--program", metavar="P", help="the program judge (default: that of the last build)")
    parser.add_argument("--start", metavar="VALUES",
                        help='first values: a file of JSON objects {"key": KEY, "value": VALUE}')
    parser.add_argument("--first", metavar="VALUE", help="the first value of each key that --start does not name")
    parser.add_argument("--failed-cas-is-false", action="store_true",
                        help="a compare-and-set that failed (:fail) returned false")
    parser.add_argument("--empty-is-missing", action="store_true", help="an empty value is a missing one")
    parser.add_argument("--split", action="store_true", help="judge each step of a transaction as a call of its own")
    return parser.parse_args(words)


def read_text(name: str) -> str:
    """The text of a file, or of standard input."""
    data = sys.stdin.buffer.read() if name == "-" else Path(name).read_bytes()
    try:
        return data.decode("utf-8")
    except UnicodeDecodeError as fault:
        raise Fault("bad-byte", 1 + data.count(b"\n", 0, fault.start), "the text is not UTF-8") from None


def find_program(named: str | None) -> Path:
    """The program of the command line, of the variable JUDGE, of the last build of a clone, beside the script, or on
    the PATH."""
    named = named or os.environ.get("JUDGE")
    places = [Path(named)] if named else [ROOT / "crates/judge/out/judge", ROOT / "judge",
                                          Path(shutil.which("judge") or ROOT / "judge")]
    for place in places:
        if place.is_file() and os.access(place, os.X_OK):
            return place.resolve()
    raise NoProgram(f"there is no program at {places[0]}: build judge, or name one with --program")


def first_values(options: argparse.Namespace, calls: list[Call]) -> dict[bytes, bytes]:
    """The first values by their keys."""
    from .texts import read_objects
    values: dict[bytes, bytes] = {}
    if options.start:
        for fields in read_objects(read_text(options.start)):
            values[fields.some("key")] = fields.some("value")
    if options.first is not None:
        for call in calls:
            for key in call.operation.keys:
                values.setdefault(key, os.fsencode(options.first))
    return values


def convert(options: argparse.Namespace, report: Report) -> list[Call]:
    """The calls of the given file, behind those that write first values."""
    said = Options(options.failed_cas_is_false, options.empty_is_missing, options.split)
    try:
        calls = FORMATS[options.format](read_text(options.file), said, report)
    except RecursionError:
        raise Fault("too-deep", 1, "brackets stand too deep in one another") from None
    values = first_values(options, calls)
    if values:
        report.assume(f"keys with first values: {len(values)}; the others have none")
    else:
        report.assume("each key has no value at first")
    calls = in_order(with_first_values(calls, values))
    fits(calls)
    return calls


def translated(verdict: str, calls: list[Call]) -> tuple[str, list[str]]:
    """A verdict with line numbers of the given file, and where the calls of those lines began."""
    began: dict[str, None] = {}

    def line(match: re.Match[str]) -> str:
        first, last = calls[int(match[2]) - 1].lines
        if first != last:
            began[f"line {last} returns the call of line {first}"] = None
        return f"{match[1]} {last}"

    return re.sub(r"^(illegal part|illegal client|stuck|fault \S+) (\d+)", line, verdict, flags=re.M), list(began)


def judge(options: argparse.Namespace, calls: list[Call]) -> int:
    """Has the program judge calls, and writes its verdict. Returns its status."""
    text = "".join(line_of(call) + "\n" for call in calls)
    whole = ["--whole"] if is_whole(calls) else []
    done = subprocess.run([find_program(options.program), "keys", *whole], input=text.encode("ascii"), stdout=subprocess.PIPE,
                          check=False)
    if done.returncode not in (LEGAL, NOT_LEGAL, UNDECIDED):
        told = done.stdout.decode("ascii").strip() or f"status {done.returncode}"
        raise NoProgram(f"the judge gave no verdict ({told})")
    verdict, began = translated(done.stdout.decode("ascii"), calls)
    for one in began:
        print(f"convert: {one}", file=sys.stderr)
    sys.stdout.write(verdict)
    return done.returncode


def _run(options: argparse.Namespace) -> int:
    report = Report()
    try:
        calls = convert(options, report)
    except Fault as fault:
        if options.judge:
            print(fault)
        print(f"convert: {fault}: {fault.why}", file=sys.stderr)
        return NOT_LEGAL
    report.write(len(calls), sum(call.end is None for call in calls), sys.stderr)
    if options.judge:
        return judge(options, calls)
    if is_whole(calls):
        print("convert: transactions over several keys: judge with 'judge keys --whole'", file=sys.stderr)
    for call in calls:
        sys.stdout.write(line_of(call) + "\n")
    sys.stdout.flush()
    return LEGAL


def main(words: list[str]) -> int:
    options = _options(words)
    try:
        return _run(options)
    except BrokenPipeError:
        os.dup2(os.open(os.devnull, os.O_WRONLY), sys.stdout.fileno())
        return NOT_LEGAL
    except (OSError, NoProgram) as fault:
        print(f"convert: {fault}", file=sys.stderr)
        return BROKEN
