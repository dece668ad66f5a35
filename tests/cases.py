"""Runs the programs on the cases of tests/row_data/*.cases, as many at a time as there are processors. Called by
tests/rows.sh, which gives it the function `run_words` that runs the words of a command line.

A case begins with its command line, and ends where the next one begins. The first characters of a line say what the
line is:

  # TEXT        a comment
  $ WORDS       the command line, as a shell would split it; the first word is the name of the program, and the word
                FILE is the name of a file
  @ LINE        a line of that file
  % W ..        a line of the input for each word; W*N is a word N times
  < LINE        a line of the input
  > LINE        a line of the output
  >* TEXT       the output goes on with this text, and then in any way
  ! LINE        a line of standard error
  = N           the status, 0 if there is no such line
  / at N ..     the input is given in two pieces, the first of N bytes: one run for each N
  / by N ..     the input is given in pieces of N bytes: one run for each N

A '|' in place of the space after '<', '>', '!' or '@' says that the text does not end its line. Standard error has the
lines that begin with '!', or none of them if they are '!|' alone. A case without these lines writes to standard error
if its status is 2, and in no other case, but that a judge may warn of a log that shows little.

A script is a case of its own form, for the rules of the system. Its commands are run over the transactional memory,
which must give the replies. With these replies they are a history, which must be legal for `judge history
--given-order`, and in order for `judge order`, both on the sequential manager.

  & BLOCKS      a script for a system of so many blocks
  * LINE -> REPLY
  *N LINE -> REPLY
                a command N times, with the same reply each time

In texts '\\t', '\\r' and '\\s' are a tab, a carriage return and a space, '\\\\' is a backslash, and '\\{TEXT*N}' is a
text N times."""

import concurrent.futures
import difflib
import fcntl
import os
import re
import shlex
import struct
import subprocess
import sys
import tempfile
import termios
import time
from dataclasses import dataclass, field
from pathlib import Path

ROWS = Path(__file__).resolve().parent / "row_data"
ESCAPE = re.compile(r"\\(?:\{(?P<text>.*?)\*(?P<times>\d+)\}|(?P<letter>.))")
LETTERS = {"t": "\t", "r": "\r", "s": " ", "\\": "\\"}
WARNING = re.compile(rb"(warning: [^\n]*\n)*")
MOST_SHOWN, MOST_BYTES = 10, 400
# The commands that try a script.
RUN, JUDGE, ORDER = ["vacation", "run"], ["judge", "history", "--given-order"], ["judge", "order"]


class BadCase(Exception):
    """A line of a file of cases that is wrong."""


@dataclass
class Case:
    place: str
    words: list
    texts: dict = field(default_factory=dict)
    goes_on: bool = False
    status: int = 0
    cuts: list = field(default_factory=list)

    def text(self, mark):
        return self.texts.get(mark, "").encode("ascii")

    def add(self, mark, text):
        if self.goes_on and mark == ">":
            raise BadCase("the output has a line after its '>*'")
        self.texts[mark] = self.texts.get(mark, "") + text


@dataclass
class Script:
    place: str
    blocks: str
    calls: list = field(default_factory=list)

    def cases(self):
        """The run of the script, and the judgements of its history."""
        run, judge, order = (Case(self.place, [*words, "--blocks", self.blocks]) for words in (RUN, JUDGE, ORDER))
        for number, (line, reply) in enumerate(self.calls):
            run.add("<", f"{line}\n")
            run.add(">", f"{reply}\n")
            for case, mark in ((judge, "<"), (order, "<"), (order, ">")):
                case.add(mark, f"0 {number} {number} {line} -> {reply}\n")
        judge.add(">", f"legal calls={len(self.calls)} clients=1\n")
        judge.goes_on = True
        return [run, judge, order]


def unescaped(text):
    """A text whose escapes are what they stand for."""
    def meant(found):
        if found["letter"] is None:
            return found["text"] * int(found["times"])
        if found["letter"] not in LETTERS:
            raise BadCase(f"there is no escape {found[0]}")
        return LETTERS[found["letter"]]
    return ESCAPE.sub(meant, text)


def read_cuts(text):
    """The places at which the input is cut: functions of the input that give its pieces."""
    how, *numbers = text.split()
    if how == "at":
        return [lambda data, at=int(number): [data[:at], data[at:]] for number in numbers]
    if how == "by":
        return [lambda data, by=int(number): [data[i:i + by] for i in range(0, len(data), by)] for number in numbers]
    raise BadCase(f"pieces are 'at' some bytes, or 'by' some bytes: {text}")


def read_line(case, line):
    """Reads a line of a case."""
    mark, form, text = line[:1], line[1:2], line[2:]
    if mark in "@<>!" and form in " |":
        case.add(mark, unescaped(text) + ("" if form == "|" else "\n"))
    elif line.startswith(">* "):
        case.add(">", unescaped(line[3:]))
        case.goes_on = True
    elif mark == "%":
        for word in text.split():
            word, _, times = word.partition("*")
            case.add("<", f"{word}\n" * int(times or 1))
    elif mark == "=":
        case.status = int(line[1:])
    elif mark == "/":
        case.cuts += read_cuts(text)
    else:
        raise BadCase(f"no line of a case: {line}")


def read_call(script, line):
    """Reads a line of a script."""
    found = re.fullmatch(r"\*(\d*) (.+) -> (.+)", line)
    if not found:
        raise BadCase(f"no line of a script: {line}")
    script.calls += [(unescaped(found[2]), unescaped(found[3]))] * int(found[1] or 1)


def read_cases(path):
    """The cases of a file."""
    found = []
    for number, line in enumerate(path.read_text(encoding="ascii").splitlines(), 1):
        place = f"{path.name}:{number}"
        try:
            if line.startswith("$ "):
                found.append(Case(place, shlex.split(line[2:])))
            elif line.startswith("& "):
                found.append(Script(place, line[2:].strip()))
            elif line and not line.startswith("#"):
                if not found:
                    raise BadCase("there is no '$' or '&' before this line")
                (read_call if isinstance(found[-1], Script) else read_line)(found[-1], line)
        except (BadCase, ValueError) as why:
            sys.exit(f"cases: {place}: {why}")
    if not found:
        sys.exit(f"cases: {path.name} has no case")
    return [case for one in found for case in (one.cases() if isinstance(one, Script) else [one])]


def give_pieces(child, pieces):
    """Writes each piece once the program has read those before it."""
    try:
        for piece in pieces:
            child.stdin.write(piece)
            while child.poll() is None and struct.unpack("i", fcntl.ioctl(child.stdin, termios.FIONREAD, b"\0" * 4))[0]:
                time.sleep(0.0001)
        child.stdin.close()
    except BrokenPipeError:
        pass


def run(words, data, cut):
    """What the program writes on these words and this input, and its status."""
    command = ["bash", "-c", 'run_words "$@"', "rows", *words]
    if cut is None:
        ended = subprocess.run(command, input=data, capture_output=True, check=False)
        return ended.stdout, ended.stderr, ended.returncode
    with tempfile.TemporaryFile() as out, tempfile.TemporaryFile() as err:
        with subprocess.Popen(command, stdin=subprocess.PIPE, stdout=out, stderr=err, bufsize=0) as child:
            give_pieces(child, cut(data))
            status = child.wait()
        out.seek(0)
        err.seek(0)
        return out.read(), err.read(), status


def difference(wanted, written):
    """The first lines that differ, those that are wanted with '<' and those that are written with '>'."""
    lines = difflib.ndiff(wanted.decode("ascii", "replace").splitlines(),
                          written.decode("ascii", "replace").splitlines())
    shown = [{"-": "<", "+": ">"}[line[0]] + line[1:] for line in lines if line[0] in "-+"]
    return "\n".join(shown[:MOST_SHOWN]) or "(only the end of the last line differs)"


def wrong_errors(case, errors):
    """What is wrong with the text on standard error, or none."""
    if "!" in case.texts:
        return None if errors == case.text("!") else "standard error differs:\n" + difference(case.text("!"), errors)
    if case.status == 2:
        return None if errors else "nothing is on standard error"
    return None if WARNING.fullmatch(errors) else f"standard error has text: {errors[:200]!r}"


def wrong_run(case, cut):
    """What is wrong with a run of a case, or none."""
    with tempfile.NamedTemporaryFile() as file:
        file.write(case.text("@"))
        file.flush()
        words = [file.name if word == "FILE" and "@" in case.texts else word for word in case.words]
        output, errors, status = run(words, case.text("<"), cut)
    wanted = case.text(">")
    if status != case.status:
        said = (output[:MOST_BYTES] + errors[:MOST_BYTES]).decode("ascii", "replace")
        return f"the status is {status}, not {case.status}, after\n{said}"
    if (output[:len(wanted)] if case.goes_on else output) != wanted:
        return "the output differs (< wanted, > written):\n" + difference(wanted, output)
    return wrong_errors(case, errors)


def wrong_case(case):
    """What is wrong with a case, or none."""
    for number, cut in enumerate(case.cuts or [None], 1):
        why = wrong_run(case, cut)
        if why is not None:
            pieces = f" (pieces of the input: way {number} of {len(case.cuts)})" if case.cuts else ""
            return f"cases: {case.place}: $ {shlex.join(case.words)}{pieces}: {why}"
    return None


def main():
    cases = [case for path in sorted(ROWS.glob("*.cases")) for case in read_cases(path)]
    if not cases:
        sys.exit(f"cases: there are no cases in {ROWS}")
    with concurrent.futures.ThreadPoolExecutor(os.cpu_count()) as workers:
        wrong = {case.place: why for case, why in zip(cases, workers.map(wrong_case, cases)) if why is not None}
    for why in wrong.values():
        print(why, file=sys.stderr)
    every = {case.place for case in cases}
    print(f"rows: {len(every) - len(wrong)} of {len(every)} cases are as they should be")
    sys.exit(1 if wrong else 0)


main()
