#!/usr/bin/env python3
"""Compares `vacation order` and `vacation judge --any-order` with a naive search that stands here, written from
docs/RULES.md and apart from the program, over the model of the manager that all scripts share. The histories are random
ones of a few clients, with pending and undetermined calls, put into other orders and damaged in one line. Up to eight
calls all orders are tried; above that a search that remembers where it was. The order that the program writes is
checked against the rules of a linearization. Then come inputs that are large or hostile. Its argument is the program;
with none it is the one that the last build left."""

import random
import subprocess
import sys
import tempfile
from collections import Counter
from pathlib import Path

sys.path.insert(0, str(Path(__file__).resolve().parent.parent / "tools"))
import built
from explaining import model
from explaining.tasks import read_task
from histories import REPLIES, interleaved, unconfirmed

BLOCKS, MANY_BLOCKS, HISTORIES, NEVER = 7, 1 << 18, 2_000, 1 << 64
# Illegal parts, by the number of states before (3 for more) and by whether a call was not completed then.
COUNTED, WRONG_AT_LAST = Counter(), 500
FAULTS = {"": "bad-call", "1 2 3 audit": "bad-call", "x 2 3 newcust 1 -> true": "bad-number",
          "1 2 3 fly -> true": "bad-command", "1 2 - fly -> true": "bad-command",
          "1 2 3 newcust 1 -> ?": "bad-call", "x" * 4097: "long-line", "\t": "bad-byte"}


def answer(state, task, blocks=BLOCKS):
    """The text of the reply to a task, and the state after it, by the model that all scripts share."""
    return model.run(state, read_task(task), blocks)


def drawn_task(draw):
    who, item = draw.randint(1, 2), draw.randint(1, 2)
    return draw.choice([f"add car {item} {draw.randint(0, 2)} {draw.choice([5, 9])}", f"newcust {who}",
                        f"free car {item}", f"bill {who}", f"leave {who}", f"reserve {who} car {item}",
                        f"reserve {who} car {item}"])


def drawn_history(draw, most):
    """The lines of a history in the order of effect. It is legal, except for undetermined calls with another reply or
    without effect."""
    state, ended, lines, now, zero = {}, {}, [], 10, draw.random() < 0.1
    clients = list(range(draw.randint(1, 4)))
    for _ in range(draw.randint(0, most)):
        if not clients:
            break
        now += draw.randint(0, 3)
        client, task = draw.choice(clients), drawn_task(draw)
        begin = max(ended.get(client, 0), now - draw.randint(0, 9))
        now = max(now, begin)
        end = now + draw.randint(0, 9)
        ended[client] = end
        if zero:
            begin = end = 0
        reply, after = answer(state, task)
        if draw.random() < 0.12:
            clients.remove(client)
            state = draw.choice([state, after])
            lines.append(f"{client} {begin} - {task} -> {unconfirmed(draw, reply)}")
        else:
            state = after
            lines.append(f"{client} {begin} {end} {task} -> {reply}")
    return lines


def read(line):
    """The client, BEGIN, END, task and reply of a call. END is later than all times if the call did not complete; then
    the reply is none if the call is pending, and given if it is undetermined."""
    head, reply = line.split(" -> ")
    client, begin, end, task = head.split(" ", 3)
    return client, int(begin), NEVER if end == "-" else int(end), task, None if reply == "?" else reply


def is_completed(line):
    return read(line)[2] < NEVER


def mixed(draw, lines):
    """The lines in another order, each client's as they were."""
    how = draw.randint(0, 5)
    if how == 0:
        return lines
    if how == 1:
        return sorted(lines, key=lambda line: read(line)[2])
    if how == 2:
        return sorted(lines, key=lambda line: read(line)[1])
    if how == 3:
        return sorted(lines, key=lambda line: read(line)[0])
    return interleaved(draw, lines)


def damaged(draw, lines):
    """The lines with one exchanged, taken out or put twice; the history may be legal all the same."""
    lines, place = list(lines), draw.randrange(len(lines))
    words = lines[place].split(" ")
    how = draw.randint(0, 5)
    if how == 0:
        lines[place] = draw.choice(list(FAULTS))
    elif how == 1:
        words[words.index("->") + 1:] = [draw.choice(["?", *REPLIES] if words[2] == "-" else REPLIES)]
        lines[place] = " ".join(words)
    elif how == 2:
        words[1] = str(draw.randint(0, 40))
        lines[place] = " ".join(words)
    elif how == 3 and words[-1] != "?":
        words[2] = draw.choice(["-", str(draw.randint(0, 40))])
        lines[place] = " ".join(words)
    elif how == 4:
        del lines[place]
    else:
        lines.insert(draw.randint(0, len(lines)), lines[place])
    return lines


def wrong_at_last(draw):
    """A history whose last call gives a reply that no state explains. Some calls before it are pending or
    undetermined."""
    lines = drawn_history(draw, 6)
    last = max((time for line in lines for time in read(line)[1:3] if time < NEVER), default=0)
    for client in range(10, 10 + draw.randint(0, 6)):
        task = drawn_task(draw)
        reply = draw.choice(["?", "?", "true", unconfirmed(draw, answer({}, task)[0])])
        lines.insert(draw.randint(0, len(lines)), f"{client} {draw.randint(0, last)} - {task} -> {reply}")
    task = draw.choice(["bill 1", "free car 1", "bill 2", "free car 2"])
    return mixed(draw, [*lines, f"20 {last} {last + draw.randint(0, 5)} {task} -> 77"])


def first_wrong(lines):
    """What is written of the first line that is no call or not in turn, or none."""
    ended = {}
    for place, line in enumerate(lines, 1):
        if line in FAULTS:
            return f"fault {FAULTS[line]} {place}\n"
        client, begin, end, _, _ = read(line)
        if begin > end or begin < ended.get(client, 0):
            return f"illegal client {place}\n"
        ended[client] = end
    return None


class Search:
    """All orders of calls, or all but those that come where the search was before."""

    def __init__(self, lines, blocks=BLOCKS):
        self.calls, self.queues, self.blocks = [read(line) for line in lines], {}, blocks
        for place, call in enumerate(self.calls):
            self.queues.setdefault(call[0], []).append(place)
        self.names, self.remembers = sorted(self.queues), len(lines) > 8
        self.seen, self.most, self.is_found = set(), 0, False

    def heads(self, done):
        return [self.queues[name][at] for name, at in zip(self.names, done) if at < len(self.queues[name])]

    def is_end(self, done):
        """Whether no completed call is left."""
        return all(self.calls[place][2] == NEVER for place in self.heads(done))

    def steps(self, done, state):
        """The calls that may come next and give their replies: what is done after each, its state, and whether it is
        completed."""
        heads = self.heads(done)
        for number, name in enumerate(self.names):
            if done[number] == len(self.queues[name]):
                continue
            _, begin, end, task, reply = self.calls[self.queues[name][done[number]]]
            said, after = answer(state, task, self.blocks)
            if all(begin <= self.calls[place][2] for place in heads) and reply in (None, said):
                yield tuple(at + (other == number) for other, at in enumerate(done)), after, end < NEVER

    def go(self, done, state, placed):
        self.most = max(self.most, placed)
        self.is_found = self.is_found or self.is_end(done)
        key = (done, frozenset(state.items()))
        if self.is_found or key in self.seen:
            return
        if self.remembers:
            self.seen.add(key)
        for more, after, is_counted in self.steps(done, state):
            self.go(more, after, placed + is_counted)

    def states(self):
        """The states that all orders leave, from the empty state on."""
        todo, seen, left = [((0,) * len(self.names), {})], set(), set()
        while todo:
            done, state = todo.pop()
            key = (done, frozenset(state.items()))
            if key not in seen:
                seen.add(key)
                todo += [(more, after) for more, after, _ in self.steps(done, state)]
                left |= {key[1]} if self.is_end(done) else set()
        return left


class Part:
    """What the calls of a history say of some customers and some cars, as calls of the same language."""

    def __init__(self, lines, names):
        self.calls = [read(line) for line in lines]
        pairs = list(zip(names[::2], names[1::2]))
        self.customers = {id for kind, id in pairs if kind == "customer"}
        self.cars = {id for kind, id in pairs if kind == "car"}
        booked = {(words[1], words[3]) for *_, task, reply in self.calls
                  if (words := task.split(" "))[0] == "reserve" and reply in (None, "true")}
        self.closed = {car for car in self.cars if all(who in self.customers for who, item in booked if item == car)}
        self.whole = {who for who in self.customers if all(item in self.cars for one, item in booked if one == who)}

    def reserve(self, task, reply):
        _, who, _, car = task.split(" ")
        if who in self.customers and car in self.cars:
            if reply == "false sold-out" and car not in self.closed:
                return f"newcust {who}", "false exists"
            return None if reply == "false full" else (task, reply)
        if reply is None or who not in self.customers and (car not in self.cars or reply == "false no-customer"):
            return None
        if who in self.customers:
            return (f"bill {who}", "-1") if reply == "false no-customer" else (f"newcust {who}", "false exists")
        return f"add car {car} 0 -", "false needs-count-and-price" if reply == "false no-item" else "true"

    def call(self, task, reply):
        """The part of a call, a task and its reply, or nothing."""
        name, *words = task.split(" ")
        if name == "reserve":
            return self.reserve(task, reply)
        if name == "leave" and words[0] in self.customers:
            as_is = reply in (None, "-1") or words[0] in self.whole
            return (task, reply) if as_is else (f"dropcust {words[0]}", "true")
        is_kept = {"add": words[1:2] and words[1] in self.cars, "newcust": words[0] in self.customers,
                   "free": words[1:2] and words[1] in self.closed, "bill": words[0] in self.whole}.get(name)
        is_read = reply is None and name in ("free", "bill")
        return (task, reply) if is_kept and not is_read and reply != "false full" else None

    def lines(self):
        """The lines of the part, by the numbers of the lines of the history."""
        parts = [(number, head, self.call(*head[3:])) for number, head in enumerate(self.calls, 1)]
        return {number: f"{client} {begin} {'-' if end == NEVER else end} {part[0]} -> {part[1] or '?'}"
                for number, (client, begin, end, *_), part in parts if part}


def cut(lines, moment):
    """The lines as they stood at a moment: a call that was running has no end, and a later call is left out."""
    for line in lines:
        client, begin, end, task, reply = read(line)
        if end <= moment:
            yield line
        elif begin <= moment:
            yield f"{client} {begin} - {task} -> {reply or '?'}"


def has_order(lines):
    search = Search(list(lines), MANY_BLOCKS)
    search.go((0,) * len(search.names), {}, 0)
    return search.is_found


def check_part(lines, told, states, said):
    """The named part has no order, by the search that stands here, and the named call is the first at whose end the
    part has none. The number of states before that end is right; it is not told if the end is at time 0. Returns the
    lines of the part by their numbers."""
    _, _, number, *names = told.split(" ")
    numbered = Part(lines, names).lines()
    part = list(numbered.values())
    ends = sorted({read(line)[2] for line in part if is_completed(line)})
    first = next((end for end in ends if not has_order(cut(part, end))), None)
    if has_order(part) or read(lines[int(number) - 1])[2] != first:
        sys.exit(f"{said}; the part has an order, or first has none at {first}")
    left = Search(list(cut(part, first - 1)), MANY_BLOCKS).states() if first else ()
    if states != ([f"states {len(left)}"] if first else []):
        sys.exit(f"{said}; {len(left)} states are possible before {first}")
    COUNTED[min(len(left), 3), any(not is_completed(line) for line in cut(part, first - 1))] += 1
    return numbered


def verdict_on_order(lines, written):
    """What the judge writes of the second lines, if they are an order of the first that is a linearization; else
    none."""
    state, queues, latest, clients = {}, {}, 0, set()
    for line in lines:
        queues.setdefault(read(line)[0], []).append(line)
    for line in written:
        client, begin, end, task, reply = read(line)
        said, state = answer(state, task)
        if queues[client].pop(0) != line or end < latest or reply not in (None, said):
            return None
        latest = max(latest, begin)
        clients.add(client)
    if any(is_completed(line) for left in queues.values() for line in left):
        return None
    return f"legal calls={len(written)} clients={len(clients)}\n{answer(state, 'audit')[0]}\n"


def run(program, text, steps=1_000_000, blocks=BLOCKS, seconds=60, command=("order",)):
    ended = subprocess.run(
        [program, *command, "--blocks", str(blocks), "--steps", str(steps)],
        input=text.encode("latin-1"), capture_output=True, timeout=seconds, check=False)
    return ended.returncode, ended.stdout.decode("latin-1")


def check_judge(program, lines, text, ordered):
    """`history` judges the calls in the order that `order` finds, or says what `order` says."""
    status, out = ordered
    wanted = (0, verdict_on_order(lines, out.splitlines())) if status == 0 else ordered
    judged = run(program, text, command=("history",))
    if judged != wanted:
        sys.exit(f"order: of\n{text}\nhistory says {judged}, and {wanted} is right")


def compare(program, lines, ending):
    """Compares the program with the search, and returns how the history is told."""
    text = "\n".join(lines) + ending
    ordered = status, out = run(program, text)
    check_judge(program, lines, text, ordered)
    said = f"order: of\n{text}\nthe program says {out!r}, status {status}"
    wrong = first_wrong(lines)
    if wrong is not None:
        if (status, out) != (1, wrong):
            sys.exit(f"{said}; the first wrong line is told by {wrong!r}")
        return wrong.split(" ")[0] + " " + wrong.split(" ")[1]
    search = Search(lines)
    search.go((0,) * len(search.names), {}, 0)
    if search.is_found:
        if status != 0 or verdict_on_order(lines, out.splitlines()) is None:
            sys.exit(f"{said}; there is an order, and this is none")
        return "legal"
    told, *stuck = out.splitlines()
    states = [line for line in stuck[-1:] if line.startswith("states ")]
    stuck = stuck[:len(stuck) - len(states)]
    numbered = dict(enumerate(lines, 1))
    if status == 1 and told.startswith("illegal part ") and stuck:
        numbered = check_part(lines, told, states, said)
    elif status != 1 or told != f"illegal order {search.most}" or not stuck:
        sys.exit(f"{said}; no order is legal, and the longest has {search.most} calls")
    for line in stuck:
        word, number, expected = line.split(" ", 2)
        blocked = numbered.get(int(number))
        if word != "stuck" or blocked is None or not is_completed(blocked) or read(blocked)[4] == expected:
            sys.exit(f"{said}; {line!r} is stuck on no other reply")
    return " ".join(told.split(" ")[:2])


def hostile(program):
    """Inputs that are large: no crash, and an answer that is right."""
    many = 3000
    overlap = "".join(f"{i} 0 {many + i} add car {i % 5 + 1} 1 5 -> true\n" for i in range(many))
    span = f"9 0 {10 * many} newcust 1 -> true\n" + "".join(
        f"{i % 4} {10 * i} {10 * i + 5} free car 1 -> -1\n" for i in range(many))
    late = f"{many} 0 {many} audit -> 3\n"
    part = f"{many} 0 {many} free car 9 -> 3\n"
    wrong = span.replace(f" {10 * many - 15} free car 1 -> -1", f" {10 * many - 15} free car 1 -> 4")
    stuck = f"{many} 0 {many + many // 2} audit -> 3\n"
    long_line = "1 2 3 " + "x" * 4080
    unsure = "".join(f"{i} 0 - free car 9 -> 3\n" for i in range(many)) + "".join(
        f"{many + i} 0 - newcust {i} -> true\n{2 * many + i} 5 9 bill {i} -> 0\n" for i in range(1, 61))
    for text, wanted, steps in [(overlap, 0, 10_000), (span, 0, 10_000), (overlap + late, 3, 200),
                                (overlap + stuck, 3, 2 * many), (overlap + part, 1, 200), (wrong, 1, 100_000),
                                (unsure, 0, 10_000), (unsure + part, 1, 10_000), ("\n" * 10, 1, 5),
                                (long_line, 1, 5), ("1 0 1 newcust 1 -> true\n" * 9, 1, 5)]:
        status, out = run(program, text, steps, 64, 600)
        if status != wanted:
            sys.exit(f"order: status {status} in the place of {wanted}, of {text[:200]!r}: {out[:200]!r}")


def held(program):
    """Judged in the order that is found, the calls are held against the work. Lines are those of the history."""
    history, work = "2 3 9 bill 1 -> 0\n1 0 5 newcust 1 -> true\n", "1 newcust 1\n2 bill 1\n"
    pending, alone = "2 6 - bill 1 -> ?\n1 0 5 newcust 1 -> true\n", "1 0 5 newcust 1 -> true\n"
    late, legal = "2 3 9 bill 2 -> -1\n1 0 5 newcust 1 -> true\n", "legal calls=2 clients=2\n"
    unsure, needed = pending.replace("?", "7"), "2 6 9 bill 1 -> 0\n1 0 - newcust 1 -> true\n"
    for history, tasks, status, begins in [
            (history, work, 0, legal), (history, work + "2 bill 2\n", 1, "illegal missing 2 2\n"),
            (history, "2 newcust 1\n", 1, "illegal task 1\n"), (history, "x\n", 1, "fault bad-tasks 1\n"),
            (late, work, 1, "illegal task 1\n"), (pending, work, 1, "illegal pending 1\n"),
            (unsure, work, 1, "illegal pending 1\n"), (needed, work, 0, legal),
            (needed, work + "1 audit\n", 0, legal), (alone, work, 1, "illegal missing 2 1\n"),
            (pending + "1 9 9 audit -> x\n", work, 1, "illegal order 1\n")]:
        with tempfile.NamedTemporaryFile("w") as file:
            file.write(tasks)
            file.flush()
            ended = subprocess.run([program, "history", "--tasks", file.name], input=history,
                                   capture_output=True, text=True, timeout=60, check=False)
        if ended.returncode != status or not ended.stdout.startswith(begins):
            sys.exit(f"order: {history!r} held against {tasks!r}: status {ended.returncode}, {ended.stdout!r}")


def main():
    program = built.judge()
    draw, told = random.Random(56), {}
    for number in range(HISTORIES):
        lines = mixed(draw, drawn_history(draw, 14 if number % 8 == 0 else 8))
        if lines and draw.random() < 0.6:
            lines = damaged(draw, lines)
        how = compare(program, lines, "\n" if lines and draw.random() < 0.8 or lines[-1:] == [""] else "")
        told[how] = told.get(how, 0) + 1
    for _ in range(WRONG_AT_LAST):
        compare(program, wrong_at_last(draw), "\n")
    held(program)
    hostile(program)
    few = [how for how in [(1, False), (1, True), (2, True), (3, True)] if COUNTED[how] < 10]
    if few or sum(COUNTED.values()) < 300:
        sys.exit(f"order: too few illegal parts with numbers of states {few}: {COUNTED}")
    print("order: " + ", ".join(f"{name} {count}" for name, count in sorted(told.items())))


main()
