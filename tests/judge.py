#!/usr/bin/env python3
"""Compares `vacation judge` with a naive judge that stands here, written from the table of verdicts in docs/RULES.md
and apart from the program, over the model of the manager that all scripts share. The histories are random ones of a
few clients, legal and damaged in one line, with pending and undetermined calls. Some are checked against a workload
(`--tasks`), the same or changed in one task. The naive judge looks through all earlier lines for each line, and keeps
nothing. Its argument is the program; with none it is the one that the last build left."""

import random
import subprocess
import sys
import tempfile
from pathlib import Path

sys.path.insert(0, str(Path(__file__).resolve().parent.parent / "tools"))
import built
from explaining.model import run
from explaining.tasks import read_task
from histories import REPLIES

BLOCKS, HISTORIES, MOST_TIME, NEVER = 9, 400, (1 << 64) - 1, 1 << 64
KINDS = ["car", "flight", "room"]
# Lines that are no task, with their fault.
BAD = {
    "fly 1": "bad-command", "": "bad-command", "newcust": "bad-count", "del flight 1 2": "bad-count",
    "free boat 1": "bad-kind", "newcust 0": "bad-number", "bill 4294967296": "bad-number",
    "add car 1 1000001 5": "bad-number", "x" * 1025: "long-line",
}


class Manager:
    """The model of the manager that all scripts share, with its state."""

    def __init__(self, blocks):
        self.blocks, self.state = blocks, {}

    def answer(self, line):
        """The text of the reply to a line that is a task."""
        reply, self.state = run(self.state, read_task(line), self.blocks)
        return reply


def number(word, digits, most):
    return word.isdigit() and len(word) <= digits and int(word) <= most


def line_fault(line):
    """The fault of a line of a history, or none; and its parts."""
    if len(line) > 4096:
        return "long-line", None
    if any(not 32 <= ord(byte) <= 126 for byte in line):
        return "bad-byte", None
    words = line.split(" ")
    at = words.index("->") if "->" in words else -1
    if at < 4 or at + 1 == len(words):
        return "bad-call", None
    has_end, has_reply = words[2] != "-", words[at + 1:] != ["?"]
    if has_end and not has_reply:
        return "bad-call", None
    numbers = zip(words, [10, 20, 20][:2 + has_end], [(1 << 32) - 1, MOST_TIME, MOST_TIME])
    if not all(number(word, digits, most) for word, digits, most in numbers):
        return "bad-number", None
    task = " ".join(words[3:at])
    if task in BAD:
        return BAD[task], None
    end, reply = int(words[2]) if has_end else NEVER, " ".join(words[at + 1:]) if has_reply else None
    return None, (int(words[0]), int(words[1]), end, task, reply)


def judge(lines):
    """What the judge writes of these lines."""
    manager, earlier = Manager(BLOCKS), []
    for place, line in enumerate(lines, 1):
        fault, call = line_fault(line)
        if fault is not None:
            return f"fault {fault} {place}\n"
        client, begin, end, task, reply = call
        if begin > end or any(one[0] == client and begin < one[2] for one in earlier):
            return f"illegal client {place}\n"
        if any(end < one[1] for one in earlier):
            return f"illegal time {place}\n"
        expected = manager.answer(task)
        if reply is not None and reply != expected:
            return f"illegal reply {place} {expected}\n"
        earlier.append(call)
    clients = len({call[0] for call in earlier})
    return f"legal calls={len(earlier)} clients={clients}\n{manager.answer('audit')}\n"


def drawn_change(draw):
    kind, ident = draw.choice(KINDS), draw.randint(1, 3)
    if draw.random() < 0.6:
        return f"add {kind} {ident} {draw.randint(0, 3)} {draw.choice(['-', '5', '70', '900'])}"
    return f"del {kind} {ident}" + ("" if kind == "flight" else f" {draw.randint(0, 2)}")


def drawn_task(draw):
    who, item = draw.randint(1, 3), f"{draw.choice(KINDS)} {draw.randint(1, 3)}"
    asks = " ".join(f"{draw.choice(KINDS)} {draw.randint(1, 3)}" for _ in range(draw.randint(1, 4)))
    changes = " ; ".join(drawn_change(draw) for _ in range(draw.randint(1, 3)))
    return draw.choice([
        drawn_change(draw), drawn_change(draw), f"newcust {who}", f"dropcust {who}", f"free {item}",
        f"price {item}", f"bill {who}", f"reserve {who} {item}", f"reserve {who} {item} 2",
        f"cancel {who} {item}", "audit", f"trip {who} {asks}", f"leave {who}", f"update {changes}",
    ])


def drawn_history(draw):
    """The lines of a legal history: each call takes effect at a time of its own, within its stamps. The last call of
    a client may be pending, or undetermined with the reply of its position."""
    manager, ended, lines, now = Manager(BLOCKS), {}, [], 10
    clients = draw.choice([[0], [1, 2], [0, 7, 4_294_967_295]])
    for _ in range(draw.randint(0, 25)):
        now += draw.randint(0, 3)
        client, task = draw.choice(clients), drawn_task(draw)
        begin = draw.randint(min(now, ended.get(client, 0)), now)
        if begin < ended.get(client, 0):
            now = begin = ended[client]
        end = now + draw.randint(0, 4)
        ended[client] = end
        answer = manager.answer(task)
        if draw.random() < 0.08:
            clients = [one for one in clients if one != client]
            lines.append(f"{client} {begin} - {task} -> {draw.choice(['?', answer])}")
        else:
            lines.append(f"{client} {begin} {end} {task} -> {answer}")
        if not clients:
            break
    return lines


def damaged(draw, line):
    """A line in the place of one of a legal history; it may be right all the same."""
    words = line.split(" ")
    at = words.index("->")
    how = draw.randint(0, 13)
    if how == 0:
        return " ".join(words[:3] + [draw.choice(list(BAD))] + words[at:])
    if how == 1:
        return line[:-1]
    if how == 2:
        return line[:-1] + draw.choice("0189ex \t\x7f")
    if how == 3:
        return line + "x" * draw.choice([1, 4096 - len(line), 4097 - len(line)])
    if how == 4:
        del words[draw.randrange(len(words))]
    elif how == 5:
        words.insert(draw.randint(0, len(words)), draw.choice(["->", "0"]))
        if len(words) > 3 and words.index("->") > 3 and words[3:words.index("->")] != line.split(" ")[3:at]:
            words = line.split(" ")
    elif how == 6:
        words[0] = draw.choice(["4294967296", "00000000001", "-1", "0", "7"])
    elif how == 7:
        words[1] = draw.choice(["0", "18446744073709551615", "18446744073709551616", "9"])
    elif how == 8:
        words[2] = draw.choice(["0", "10", "18446744073709551615", "1" * 21])
    elif how == 9:
        words[1], words[2] = words[2], words[1]
    elif how == 10:
        words[2] = draw.choice(["-", "--"])
    elif how == 11:
        words[at + 1:] = ["?"]
    elif how == 12:
        words[2], words[at + 1:] = "-", [draw.choice(REPLIES)]
    else:
        words[2], words[at + 1:] = "-", ["?"]
    if how == 4 and "->" in words and words.index("->") != at - 1:
        return " ".join(words)
    if how == 4 and "->" in words:
        return line[:draw.randrange(len(" ".join(words[:3])))]
    return " ".join(words)


def work_of(draw, lines):
    """The tasks of a legal history, each client's in its order, with one of them changed perhaps."""
    work = [(line.split(" ")[0], " ".join(line.split(" ")[3:line.split(" ").index("->")])) for line in lines]
    clients = draw.sample(sorted({client for client, _ in work}), len({client for client, _ in work}))
    if draw.random() < 0.5:
        work = sorted(work, key=lambda one: clients.index(one[0]))
    how, place = draw.randint(0, 9), draw.randint(0, max(len(work) - 1, 0))
    if how == 0:
        work.insert(place, (draw.choice(["0", "7", "12"]), drawn_task(draw)))
    elif how == 1 and work:
        del work[place]
    elif how == 2 and work:
        work[place] = (work[place][0], drawn_task(draw))
    elif how == 3 and work:
        work[place] = (work[place][0], draw.choice(list(BAD)))
    return work


def held(lines, work):
    """What the judge writes of these lines, held against work."""
    bad = [place for place, (_, task) in enumerate(work, 1) if task in BAD]
    if bad:
        return f"fault bad-tasks {bad[0]}\n"
    verdict = judge(lines)
    last = len(lines) if verdict.startswith("legal") else int(verdict.split()[2])
    made, stopped = {}, set()
    for place, line in enumerate(lines[:last], 1):
        fault, call = line_fault(line)
        if fault is not None:
            break
        asked = [task for client, task in work if int(client) == call[0]]
        if asked[made.get(call[0], 0):][:1] != [call[3]]:
            return f"illegal task {place}\n"
        made[call[0]] = made.get(call[0], 0) + 1
        if call[2] == NEVER:
            stopped.add(call[0])
    if verdict.startswith("legal"):
        handed = {}
        for client, _ in work:
            handed[client] = handed.get(client, 0) + 1
            if handed[client] > made.get(int(client), 0) and int(client) not in stopped:
                return f"illegal missing {client} {handed[client]}\n"
    return verdict


def asked(program, text, *words):
    """What the program writes of a history, and its status."""
    ended = subprocess.run(
        [program, "history", "--given-order", "--blocks", str(BLOCKS), *words], input=text.encode("latin-1"),
        capture_output=True, timeout=20, check=False,
    )
    return ended.stdout.decode("latin-1"), ended.returncode


def main():
    program = built.judge()
    draw, verdicts = random.Random(33), {}
    for _ in range(HISTORIES):
        lines = drawn_history(draw)
        work = work_of(random.Random(draw.random()), lines)
        if lines and draw.random() < 0.75:
            place = draw.randrange(len(lines))
            lines[place] = damaged(draw, lines[place])
        text = "\n".join(lines) + ("\n" if lines and draw.random() < 0.8 else "")
        with tempfile.NamedTemporaryFile("w", encoding="latin-1") as file:
            file.write("".join(f"{client} {task}\n" for client, task in work))
            file.flush()
            for wanted, words in ((judge(lines), ()), (held(lines, work), ("--tasks", file.name))):
                status = 0 if wanted.startswith("legal") else 1
                found = asked(program, text, *words)
                if found != (wanted, status):
                    sys.exit(f"judge: of\n{text}\nagainst {work if words else 'nothing'} the program says {found}; "
                             f"the naive judge says {wanted!r}")
                name = " ".join(wanted.split(" ")[:1 if status == 0 else 2])
                verdicts[name] = verdicts.get(name, 0) + 1
    print("judge: " + ", ".join(f"{name} {count}" for name, count in sorted(verdicts.items())))


main()
