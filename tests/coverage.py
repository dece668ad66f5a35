#!/usr/bin/env python3
"""Checks what `judge history`, `order` and `attempts` report of a log on standard error: the figures of `--stats`, and
the warning about a log that shows little, which nobody has to ask for. The figures are counted anew here, each call
against each other. The logs are random, legal or with a damaged line, with and without overlaps and calls without an
end, and empty. Standard output and the status must be the same with `--stats` and without. Its argument is the program;
with none it is the one that the last build left."""

import random
import subprocess
import sys
import tempfile

import built

LOGS, NEVER, MOST_UNASKED, TURNS = 60, 1 << 64, 1 << 14, 200
NONE = "warning: there is no {}: {} says nothing\n"
FEW = "warning: fewer than one {} in ten began beside another: {} says little\n"
BEHIND = "warning: tasks behind a call without END are not missing; such calls: {}\n"
GIVEN = ["history", "--given-order"]
CALLS = [GIVEN, ["history"], ["order"]]
ATTEMPTS = [["attempts"], ["attempts", "--place"]]


def want(holds, what):
    if not holds:
        print(f"coverage: {what}", file=sys.stderr)
        sys.exit(1)


def number(word, digits, bits):
    return word.isdigit() and len(word) <= digits and int(word) < 1 << bits


def interval(words):
    """The client, BEGIN and END of a line, or none if it is no call."""
    if len(words) < 4 or not number(words[0], 10, 32) or not number(words[1], 20, 64):
        return None
    if words[2] == "-":
        return int(words[0]), int(words[1]), NEVER
    return (int(words[0]), int(words[1]), int(words[2])) if number(words[2], 20, 64) else None


def figures(lines, what):
    """The lines of `--stats`, and the warning, if there is one."""
    words = [line.split(" ") for line in lines]
    calls = [one for one in map(interval, words) if one is not None]
    met = [sum(other[0] != call[0] and other[1] <= call[1] < other[2] for other in calls) for call in calls]
    overlapped, most = sum(map(bool, met)), max((one + 1 for one in met), default=0)
    clients = len({call[0] for call in calls})
    if what == "call":
        told = [("calls", len(calls)), ("clients", clients), ("pending calls", sum(c[2] == NEVER for c in calls))]
    else:
        ends = [one for one in words if len(one) > 3 and one[3] in ("commit", "abort")]
        told = [("attempts", len(calls)), ("clients", clients),
                ("aborted attempts", sum(one[3] == "abort" for one in ends)),
                ("attempts that wrote nothing", sum(not any("w" in word for word in one) for one in ends))]
    told += [(f"{what}s that began while another client's ran", overlapped), (f"most {what}s at one moment", most)]
    verdict = "legal" if what == "call" else "opaque"
    warning = "" if calls and overlapped * 10 >= len(calls) else (FEW if calls else NONE).format(what, verdict)
    return "".join(f"{name}: {value}\n" for name, value in told), warning


def drawn_spans(draw, most):
    """Intervals in an order that fits them, each client's after one another; few of them overlap, or many."""
    now, ended, clients, wide = 10, {}, list(range(1, draw.randint(2, 6))), draw.choice([0, 0, 1, 12])
    for _ in range(draw.choice([0, 1, 5, most])):
        client = draw.choice(clients)
        now = max(now + draw.randint(1, 3), ended.get(client, 0) + 1)
        begin = draw.randint(max(ended.get(client, 0), now - wide), now)
        ended[client] = now + draw.randint(0, 1 + wide)
        yield client, begin, ended[client], draw
        now = max(now, ended[client]) if not wide else now


def drawn_log(draw, what, most=40):
    """The lines of a legal log: all customers are new; no word that is read is written."""
    lines = []
    for place, (client, begin, end, _) in enumerate(drawn_spans(draw, most), 1):
        if what == "call":
            lines.append(f"{client} {begin} {end} newcust {place} -> true")
        else:
            lines.append(f"{client} {begin} {end} " + draw.choice(
                ["commit", "abort", "commit r 1 0", "abort r 1 0 r 2 0", f"commit r 1 0 w {place + 9} 1"]))
    if what == "call" and lines and draw.random() < 0.3:
        words = lines[-1].split(" ")
        lines[-1] = f"{words[0]} {words[1]} - newcust {len(lines)} -> {draw.choice(['?', 'true'])}"
    return lines


def run(program, words, lines, end="\n"):
    text = "\n".join(lines) + (end if lines else "")
    ended = subprocess.run([program, *words], input=text, capture_output=True, text=True, timeout=120, check=False)
    return ended.stdout, ended.returncode, ended.stderr


def check_log(program, words, lines, what, end="\n"):
    """Runs a command with and without `--stats`, and returns its status."""
    told, warning = figures(lines, what)
    plain, asked = run(program, words, lines, end), run(program, words + ["--stats"], lines, end)
    pending = sum(line.split(" ")[2:3] == ["-"] for line in lines)
    if "--tasks" in words and pending:
        warning += BEHIND.format(pending)
    warning = warning if plain[1] == 0 else ""
    want(plain[:2] == asked[:2], f"{words}: {plain}, with --stats {asked}")
    want(plain[2] == warning, f"{words}: {plain[2]!r}, not {warning!r}, of {lines}")
    want(asked[2] == told + warning, f"{words} --stats: {asked[2]!r}, not {told + warning!r}, of {lines}")
    return plain[1]


def check_tasks(program):
    """The history is measured, and not the workload."""
    lines = ["1 1 9 newcust 1 -> true", "2 2 8 newcust 2 -> true"]
    with tempfile.NamedTemporaryFile("w") as file:
        file.write("1 newcust 1\n2 newcust 2\n")
        file.flush()
        for words in (GIVEN, ["history"]):
            want(check_log(program, words + ["--tasks", file.name], lines, "call") == 0, f"{words} --tasks is illegal")
    for words in ([*GIVEN, "--tasks", "/no/such/file"], ["history", "--tasks", "/no/such/file"]):
        ended = run(program, words, lines)
        want(ended == ("fault open\n", 4, ""), f"{words}: {ended}")


def check_pending(program):
    """Tasks behind calls that never ended: those calls are counted, if the history is legal and has a workload."""
    whole = ["1 1 9 newcust 1 -> true", "2 2 8 newcust 2 -> true"]
    with tempfile.NamedTemporaryFile("w") as file:
        file.write("1 newcust 1\n2 newcust 2\n3 newcust 3\n3 newcust 4\n4 newcust 5\n4 newcust 6\n")
        file.flush()
        for more in (["3 3 - newcust 3 -> ?"], ["3 3 - newcust 3 -> true", "4 4 - newcust 5 -> ?"]):
            for words in (GIVEN, ["history"]):
                status = check_log(program, words + ["--tasks", file.name], whole + more, "call")
                want(words != GIVEN or status == (0 if len(more) == 2 else 1), f"{words} --tasks: status {status} with {more}")
                want(check_log(program, words, whole + more, "call") == 0, f"{words}: pending calls are illegal")


def check_long(program):
    """A log of too many calls to be watched unasked."""
    for calls in (MOST_UNASKED, MOST_UNASKED + 1):
        lines = [f"1 {2 * place} {2 * place + 1} bill 1 -> -1" for place in range(calls)]
        few = FEW.format("call", "legal")
        want(run(program, GIVEN, lines)[1:] == (0, few if calls == MOST_UNASKED else ""), f"{calls} calls")
        want(run(program, [*GIVEN, "--stats"], lines)[2].endswith("most calls at one moment: 1\n" + few),
             f"{calls} calls with --stats")


def main():
    program, draw, warned = built.judge(), random.Random(7), 0
    for what, commands in (("call", CALLS), ("attempt", ATTEMPTS)):
        for words in commands:
            want(check_log(program, words, [], what) == 0, f"{words}: the empty log is refused")
        for _ in range(LOGS):
            lines = drawn_log(draw, what)
            warned += figures(lines, what)[1] != ""
            end = draw.choice(["\n", "\n", ""])
            for words in commands:
                status = check_log(program, words, lines, what, end)
                want(status == 0, f"{words}: status {status} of {lines}")
            if lines:
                bad = draw.choice(["", "1 2", "x 1 2 audit", "3 4 5", "1 2 3 fly -> true", "4 5 - commit", "1 1 x abort"])
                damaged = lines[:]
                damaged.insert(draw.randint(0, len(lines)), bad)
                for words in commands:
                    want(check_log(program, words, damaged, what, "\n") == 1, f"{words}: {damaged} is right")
    want(TURNS > warned > 20, f"{warned} logs of {2 * LOGS} are warned of")
    check_tasks(program)
    check_pending(program)
    check_long(program)
    want(run(program, ["part", "--customer", "1", "--stats"], [])[1] == 2, "part takes --stats")
    for words in (["run"], ["dump"], ["check"], ["tasks"]):
        want(run(built.vacation(), words + ["--stats"], [])[1] == 2, f"{words} takes --stats")
    print(f"coverage: {2 * LOGS} logs, {warned} of them warned of")


main()
