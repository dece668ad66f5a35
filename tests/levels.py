#!/usr/bin/env python3
"""Compares `judge order --level` and `judge history --level` with a search that stands here, written
from docs/RULES.md and docs/LOGS.md and apart from the program, over the model of the manager that all scripts share.
The histories are small random ones, with pending and undetermined calls, and each is searched at each level of
consistency. An order that the program writes is checked by the rules of its level. Then come the command lines that are
refused. Its argument is the program; with none it is the one that the last build left."""

import random
import re
import subprocess
import sys
from collections import Counter
from pathlib import Path

sys.path.insert(0, str(Path(__file__).resolve().parent.parent / "tools"))
import built
from explaining import model
from explaining.tasks import read_task
from histories import REPLIES, interleaved, unconfirmed

BLOCKS, HISTORIES, STEPS, NEVER = 5, 2_000, 100_000, 1 << 64
LEVELS = ("linearizable", "sequential", "serializable")
FAULTS = {"": "bad-call", "1 2 3 audit": "bad-call", "1 2 3 fly -> true": "bad-command"}
NO_LEVEL = "error: --level is linearizable, sequential or serializable\n"
STRAY = "error: --level, --steps and --progress do not go with --given-order\n"
TASKS_BELOW = "error: --tasks needs the level linearizable\n"


class Call:
    """A call of a history, with its line. A pending call has no reply; an undetermined one has a reply and no end."""

    def __init__(self, line):
        head, reply = line.split(" -> ")
        self.client, begin, end, task = head.split(" ", 3)
        self.begin, self.line, self.task = int(begin), line, read_task(task)
        self.end, self.reply = NEVER if end == "-" else int(end), None if reply == "?" else reply
        self.is_completed = end != "-"

    def fits(self, said):
        """True if the call may give this reply: a pending call may give any."""
        return self.reply in (None, said)


def drawn_task(draw):
    who, car = draw.randint(1, 2), draw.randint(1, 2)
    return draw.choice([f"add car {car} {draw.randint(0, 2)} 5", f"newcust {who}", f"newcust {who}", f"free car {car}",
                        f"bill {who}", f"bill {who}", f"leave {who}", f"reserve {who} car {car}"])


def drawn_history(draw):
    """The lines of a few clients that share few times; replies are those of some order of the calls. Of the calls
    without an end some are pending, some undetermined, and some took no effect."""
    clients = range(draw.randint(2, 4))
    calls, free = [], {client: draw.randint(0, 3) for client in clients}
    for _ in range(draw.randint(0, 6)):
        client = draw.choice(clients)
        if free[client] == NEVER:
            continue
        begin = free[client] + draw.randint(0, 2)
        end = NEVER if draw.random() < 0.15 else begin + draw.randint(0, 3)
        calls.append((client, begin, end, drawn_task(draw)))
        free[client] = end
    order = list(range(len(calls)))
    if draw.random() < 0.6:
        draw.shuffle(order)
    replies, state = {}, {}
    for place in order:
        replies[place], after = model.run(state, read_task(calls[place][3]), BLOCKS)
        if calls[place][2] == NEVER:
            replies[place] = unconfirmed(draw, replies[place])
            after = draw.choice([state, after])
        state = after
    return [f"{client} {begin} {'-' if end == NEVER else end} {task} -> {replies[place]}"
            for place, (client, begin, end, task) in enumerate(calls)]


def damaged(draw, lines):
    """The lines with another reply, another time, or a line that is no call."""
    lines, place = list(lines), draw.randrange(len(lines))
    words, how = lines[place].split(" "), draw.random()
    if how < 0.1:
        lines[place] = draw.choice(list(FAULTS))
    elif how < 0.2:
        words[1] = str(draw.randint(0, 9))
        lines[place] = " ".join(words)
    elif words[-1] != "?":
        words[words.index("->") + 1:] = [draw.choice(REPLIES)]
        lines[place] = " ".join(words)
    return lines


def first_wrong(lines):
    """The verdict on the first line that is no call, or whose call is not in turn, if there is such a line."""
    ended = {}
    for number, line in enumerate(lines, 1):
        if line in FAULTS:
            return f"fault {FAULTS[line]} {number}\n"
        call = Call(line)
        if call.begin > call.end or call.begin < ended.get(call.client, 0):
            return f"illegal client {number}\n"
        ended[call.client] = call.end
    return None


class Search:
    """Tries all orders of the calls that a level allows."""

    def __init__(self, calls, level):
        self.calls, self.level = calls, level
        self.seen, self.most, self.is_found = set(), 0, False
        self.go(frozenset(range(len(calls))), {}, 0)

    def may_come(self, place, left):
        """True if the level lets a call come before the others that are left."""
        call, others = self.calls[place], [(other, self.calls[other]) for other in left if other != place]
        if self.level == "serializable":
            return True
        if any(other < place and them.client == call.client for other, them in others):
            return False
        return self.level == "sequential" or all(them.end >= call.begin for _, them in others)

    def go(self, left, state, placed):
        self.most = max(self.most, placed)
        self.is_found |= not any(self.calls[place].is_completed for place in left)
        key = left, frozenset(state.items())
        if self.is_found or key in self.seen:
            return
        self.seen.add(key)
        for place in sorted(left):
            call = self.calls[place]
            said, after = model.run(state, call.task, BLOCKS)
            if call.fits(said) and self.may_come(place, left):
                self.go(left - {place}, after, placed + call.is_completed)


def is_order(lines, written, level):
    """True if the written lines are those of the history, without some calls that did not complete, in an order of the
    level."""
    missing = Counter(lines)
    missing.subtract(written)
    if any(count < 0 or count and Call(line).is_completed for line, count in missing.items()):
        return False
    state, order = {}, [Call(line) for line in written]
    for place, call in enumerate(order):
        said, state = model.run(state, call.task, BLOCKS)
        later = order[place + 1:]
        if not call.fits(said) or level == "linearizable" and any(them.end < call.begin for them in later):
            return False
    if level == "serializable":
        return True
    for client in {call.client for call in order}:
        mine = [line for line in lines if line.split(" ")[0] == client]
        ours = [call.line for call in order if call.client == client]
        if mine[:len(ours)] != ours:
            return False
    return True


def run(program, words, text):
    ended = subprocess.run([program, *words], input=text, capture_output=True, text=True, timeout=60, check=False)
    return ended.returncode, ended.stdout, ended.stderr


def searched(program, words, level, text):
    """The status and the output of a search at a level. Linearizability is the default, and named at times."""
    named = [] if level == "linearizable" and len(text) % 2 else ["--level", level]
    return run(program, [*words, *named, "--blocks", str(BLOCKS), "--steps", str(STEPS)], text)[:2]


def check_judge(program, level, text, ordered):
    """`history` says that an order was found, or what `order` says."""
    judged, line = searched(program, ["history"], level, text), f"legal {level}\n"
    if ordered[0] != 0:
        fits = judged == ordered
    elif level == "linearizable":
        fits = judged[0] == 0 and judged[1].startswith("legal calls=")
    else:
        fits = judged == (0, line)
    if not fits:
        sys.exit(f"levels: of\n{text}\nat the level {level}, order says {ordered!r}, and judge {judged!r}")


def compare(program, lines, level):
    """Compares the program with the search at a level, and returns whether there is an order."""
    text = "".join(f"{line}\n" for line in lines)
    ordered = status, out = searched(program, ["order"], level, text)
    said = f"levels: of\n{text}\nat the level {level}, the program says {out!r}, status {status}"
    check_judge(program, level, text, ordered)
    wrong = first_wrong(lines)
    if wrong is not None:
        if ordered != (1, wrong):
            sys.exit(f"{said}; the first wrong line is told by {wrong!r}")
        return False
    search = Search([Call(line) for line in lines], level)
    if search.is_found:
        if status != 0 or not is_order(lines, out.splitlines(), level):
            sys.exit(f"{said}; there is an order, and this is none")
        return True
    told, *stuck = out.splitlines()
    if told.startswith("illegal part ") and stuck[-1:] and re.fullmatch("states [1-9][0-9]*", stuck[-1]):
        stuck.pop()
    if status != 1 or not stuck or not told.startswith("illegal part ") and told != f"illegal order {search.most}":
        sys.exit(f"{said}; there is no order, and the longest has {search.most} calls")
    for line in stuck:
        word, number, expected = line.split(" ", 2)
        call = Call(lines[int(number) - 1])
        if word != "stuck" or not call.is_completed or told.startswith("illegal order ") and call.fits(expected):
            sys.exit(f"{said}; {line!r} is stuck on no other reply")
    return False


def refusals(program):
    """Command lines that are refused: nothing is read, and nothing is written to standard output."""
    call = "1 0 5 newcust 1 -> true\n"
    for words, wanted in [(["order", "--level", "strict"], NO_LEVEL), (["order", "--level", ""], NO_LEVEL),
                          (["order", "--level", "Sequential"], NO_LEVEL),
                          (["history", "--given-order", "--level", "snapshot"], NO_LEVEL),
                          (["history", "--level", "sequential "], NO_LEVEL),
                          (["history", "--given-order", "--level", "linearizable"], STRAY),
                          (["history", "--level", "sequential", "--given-order"], STRAY),
                          (["history", "--given-order", "--steps", "5"], STRAY),
                          (["history", "--given-order", "--progress"], STRAY),
                          (["history", "--given-order", "--level", "sequential", "--tasks", "/none"], STRAY),
                          (["history", "--level", "sequential", "--tasks", "/none"], TASKS_BELOW),
                          (["history", "--level", "serializable", "--tasks", "/none"], TASKS_BELOW)]:
        with open("/dev/null", "rb") as nothing:
            ended = subprocess.run([program, *words], stdin=nothing, capture_output=True, text=True, timeout=60,
                                   check=False)
        if (ended.returncode, ended.stdout, ended.stderr) != (2, "", wanted):
            sys.exit(f"levels: {words}: {ended}")
    status, out, _ = run(program, ["history", "--level", "linearizable", "--tasks", "/none"], call)
    if (status, out) != (4, "fault open\n"):
        sys.exit(f"levels: --tasks at the level linearizable: status {status}, {out!r}")
    for words in [["part", "--level", "sequential"], ["order", "--level"], ["attempts", "--level", "sequential"]]:
        status, out, error = run(program, words, call)
        if (status, out) != (2, "") or not error.startswith("error: "):
            sys.exit(f"levels: {words}: status {status}, {out!r}, {error!r}")


def undecided(program):
    """Without steps nothing is decided, by either subcommand at each level."""
    text = "1 2 3 newcust 3 -> true\n2 4 5 bill 3 -> -1\n"
    for level in LEVELS:
        for words in (["order"], ["history"]):
            status, out, _ = run(program, [*words, "--level", level, "--steps", "0"], text)
            if (status, out) != (3, "undecided 0\n"):
                sys.exit(f"levels: {words} at the level {level} without steps: status {status}, {out!r}")


def main():
    program = built.judge()
    draw, told = random.Random(83), Counter()
    for _ in range(HISTORIES):
        lines = interleaved(draw, drawn_history(draw))
        if lines and draw.random() < 0.5:
            lines = damaged(draw, lines)
        found = [compare(program, lines, level) for level in LEVELS]
        if found != sorted(found):
            sys.exit(f"levels: of {lines} the levels {LEVELS} say {found}: a weaker one says less")
        told[LEVELS[found.index(True)] if any(found) else "none"] += 1
    refusals(program)
    undecided(program)
    print("levels: strongest level " + ", ".join(f"{name} {told[name]}" for name in (*LEVELS, "none")))


main()
