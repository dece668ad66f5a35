#!/usr/bin/env python3
"""Holds ./explain against the program. Its model answers random scripts as the program does. Its search agrees with
the program on random small histories, legal and damaged, with pending and undetermined calls. The part of a legal
history on any scope is legal, and so is the history up to any moment. The parts that the program writes are those of
tests/parts.py, of the whole history and of its cut at the end of each call (`part --until`). The part of a verdict
`illegal part L SCOPE` is illegal as `part --until L` writes it. Each anomaly of tests/anomalies gets its name, a text
of at most 30 lines, and a smallest run that the program calls illegal; so does one with an undetermined call. Names,
levels and orders agree, and so do the text and the picture; other causes that give the same calls are told. A legal
log of which the order of lines is illegal is told as one, and so is a text of another format. Legal logs of loads show
no contradiction; a damaged log gets the judge's fault; a large one is read in bounded memory. The argument is the
program; with none it is the one that the last build left."""

import os
import random
import re
import subprocess
import sys
import tempfile
from collections import Counter
from html.parser import HTMLParser
from pathlib import Path
from xml.etree import ElementTree

ROOT = Path(__file__).resolve().parent.parent
sys.dont_write_bytecode = True
sys.path.insert(0, str(ROOT / "tools"))
import built
from histories import unconfirmed
from parts import part_of, part_until
from explaining import history
from explaining.findings import findings
from explaining.levels import LEVELS, SEQUENTIAL, SERIALIZABLE, SNAPSHOT
from explaining.model import applied, run, transaction
from explaining.names import FORBIDDEN_BY
from explaining.parts import Bookings, Scope, cut, project
from explaining.program import MOST_BLOCKS, Program, is_illegal, opening_tasks
from explaining.search import first_wrong
from explaining.tasks import BadLine, read_call, read_task
from explaining.text import explanation

SCRIPTS, HISTORIES, AGREEING, SEED = 12, 200, 160, 11
# Verdicts whose parts are written and judged, and the most histories that are drawn for them.
PART_VERDICTS, MOST_DRAWN = 300, 3_000
PATIENCE = 60
MOST_LINES, MOST_WIDTH = 30, 100
# The anomalies, with the name that each must get and the levels between which it stands.
NAMES = {
    "double-booking": ("double booking", "snapshot isolation", "read committed"),
    "duplicate-execution": ("duplicate execution", "single statements", None),
    "long-fork": ("long fork", "snapshot isolation", "read committed"),
    "lost-update": ("lost write", "linearizable", "sequentially consistent"),
    "lost-update-of-a-bill": ("lost update (P4)", "snapshot isolation", "read committed"),
    "lost-update-by-an-old-price": ("lost update (P4)", "snapshot isolation", "read committed"),
    "lost-update-of-two-readers": ("lost write", "linearizable", "sequentially consistent"),
    "lost-update-without-times": ("double booking (by lost update (P4))", "snapshot isolation", "read committed"),
    "lost-write": ("lost write", "linearizable", "sequentially consistent"),
    "of-no-known-kind": ("of no known kind", "single statements", None),
    "read-skew": ("read skew (G-single, A5A)", "snapshot isolation", "read committed"),
    "stale-read": ("stale read", "linearizable", "sequentially consistent"),
    "stale-read-of-a-price": ("stale read", "single statements", None),
    "stale-read-of-the-own-write": ("stale read", "sequentially consistent", "serializable"),
    "torn-read": ("torn read", "read committed", "single statements"),
    "torn-report": ("torn read", "read committed", "single statements"),
    "write-skew": ("write skew (G2, by a phantom)", "serializable", "snapshot isolation"),
    "write-skew-of-items": ("write skew (G2-item, A5B)", "serializable", "snapshot isolation"),
    "write-skew-without-times": ("write skew (G2, by a phantom)", "serializable", "snapshot isolation"),
}

# Sentences on the other causes that give the same calls, and the last lines of schedules, which are not cut.
TOLD = {
    "lost-update": "Or 4 was answered from an older state: these calls alone do not tell.",
    "lost-write": "Or 3 was answered from an older state: these calls alone do not tell.",
    "stale-read": "Or what 2 wrote was lost: these calls alone do not tell.",
    "stale-read-of-the-own-write": "Or what 2 wrote was lost: these calls alone do not tell.",
    "write-skew": "Or what 3 wrote was lost: these calls alone do not tell.",
    "lost-update-of-a-bill": "7 reads the bookings of customer 4, flight 1, room 5 and removes customer 4's booking of"
                             " flight 1, customer 4's booking of room 5, customer 4 levels",
}
# Both orders of two updates before a read.
BOTH_ORDERS = ("2, then 3, then 4: it answered 2, right is 3", "3, then 2, then 4: it answered 2, right is 3")


def want(holds, what):
    if not holds:
        raise AssertionError(what)


def drawn_item(draw):
    return f"{draw.choice(['car', 'flight', 'room'])} {draw.randint(1, 2)}"


def drawn_change(draw):
    item = drawn_item(draw)
    if draw.random() < 0.6:
        return f"add {item} {draw.choice([0, 1, 2])} {draw.choice(['-', 0, 50, 60])}"
    return f"del {item}" if item.startswith("flight") else f"del {item} {draw.choice([0, 1, 2])}"


def drawn_line(draw):
    """A task of few items and customers: most meet each other."""
    who, item = draw.randint(1, 2), drawn_item(draw)
    asks = " ".join(drawn_item(draw) for _ in range(draw.randint(1, 4)))
    return draw.choice([
        drawn_change(draw), drawn_change(draw), drawn_change(draw), f"newcust {who}", f"dropcust {who}",
        f"free {item}", f"price {item}", f"bill {who}", f"bill {who}", f"reserve {who} {item}",
        f"reserve {who} {item} {draw.choice([1, 2])}", f"cancel {who} {item}", f"trip {who} {asks}",
        f"trip {who} {asks}", f"leave {who}", "audit",
        "update " + " ; ".join(drawn_change(draw) for _ in range(draw.randint(1, 3)))])


def holds_model(vacation):
    """The model gives the replies of the program vacation, with few blocks and with many."""
    for number in range(SCRIPTS):
        draw, blocks = random.Random(SEED + number), (6, 1024)[number % 2]
        lines = [drawn_line(draw) for _ in range(400)]
        done = subprocess.run([vacation, "run", "--blocks", str(blocks)], capture_output=True, text=True,
                              input="".join(f"{line}\n" for line in lines), check=True, timeout=PATIENCE)
        state = {}
        for line, wanted in zip(lines, done.stdout.splitlines(), strict=True):
            task = read_task(line)
            want(task.line() == line.replace(" 1", " 1") or task.name == "reserve", f"{line!r} is read as {task}")
            reply, state = run(state, task, blocks)
            want(reply == wanted, f"{line}: the model says {reply!r}, the program {wanted!r}")


def drawn_history(draw, most):
    """The lines of a history: calls take effect one after the other, each between its stamps. It is legal, except for
    undetermined calls with another reply or without effect."""
    state, ended, lines, now = {}, {}, [], 10
    for line in ("add car 1 2 50", "add room 1 1 60", "newcust 1")[:draw.randint(0, 3)]:
        state = run(state, read_task(line))[1]
        lines.append(f"0 0 0 {line} -> true")
    clients = [1, 2, 3]
    for _ in range(draw.randint(1, most)):
        if not clients:
            break
        now += draw.randint(1, 4)
        client, task = draw.choice(clients), drawn_line(draw)
        begin = max(ended.get(client, 0), now - draw.randint(0, 9))
        now = max(now, begin)
        reply, after = run(state, read_task(task))
        if draw.random() < 0.18:
            clients.remove(client)
            state = draw.choice([state, after])
            lines.append(f"{client} {begin} - {task} -> {unconfirmed(draw, reply)}")
            continue
        state = after
        ended[client] = now + draw.randint(0, 9)
        lines.append(f"{client} {begin} {ended[client]} {task} -> {reply}")
    return lines


def damaged(draw, lines):
    """The lines with one reply exchanged; the history may be legal all the same."""
    place = draw.randrange(len(lines))
    head, _, reply = lines[place].partition(" -> ")
    if reply != "?":
        other = draw.choice([line.partition(" -> ")[2] for line in lines] + ["true", "-1", "0", "50"])
        lines = [*lines[:place], f"{head} -> {reply if other == '?' else other}", *lines[place + 1:]]
    return lines


def drawn_scope(draw, calls):
    customers = frozenset(who for who in (1, 2) if draw.random() < 0.6)
    items = frozenset((kind, number) for kind in ("car", "flight", "room") for number in (1, 2)
                      if draw.random() < 0.5)
    return Scope(customers, items, Bookings(calls))


def holds_parts(program):
    """Search and program agree; parts and openings of legal histories are legal."""
    legal = illegal = parts = 0
    for seed in range(HISTORIES):
        draw = random.Random(SEED + seed)
        lines = drawn_history(draw, 12)
        lines = damaged(draw, lines) if seed % 3 == 0 else lines
        calls = [read_call(number, line) for number, line in enumerate(lines, 1)]
        verdict = program.judge(lines)
        want(verdict.startswith(("legal", "illegal order", "illegal part")), f"{verdict}: {lines}")
        is_legal = verdict.startswith("legal")
        bad = first_wrong(calls, blocks=MOST_BLOCKS)
        want((bad is None) == is_legal, f"seed {seed}: the program says {verdict}, the search {bad}: {lines}")
        legal, illegal = legal + is_legal, illegal + (not is_legal)
        for _ in range(6):
            scope = drawn_scope(draw, calls)
            part = project(calls, scope)
            bad = first_wrong(part)
            parts += bad is not None
            want(bad is None or not is_legal, f"seed {seed}: legal, but the part on {scope.customers} and"
                 f" {scope.items} is wrong at {bad}: {lines}")
        moment = draw.choice(calls).end if draw.random() < 0.7 else draw.randint(0, 60)
        if is_legal and moment < 1 << 64:
            kept = cut(calls, moment)
            want(first_wrong(kept, blocks=MOST_BLOCKS) is None, f"seed {seed}: legal, but not up to {moment}: {lines}")
            verdict = program.judge(call.line() for call in kept)
            want(verdict.startswith("legal"), f"seed {seed}: legal, but {verdict} up to {moment}: {lines}")
    want(legal > 100 and illegal > 20 and parts > 40, f"too few of a kind: {legal}, {illegal}, {parts}")
    return f"{legal} legal and {illegal} illegal histories, {parts} illegal parts"


def written_part(program, lines, customers, items, until=()):
    words = [program.path, "part", *until, *(word for who in sorted(customers) for word in ("--customer", str(who))),
             *(word for kind, number in sorted(items) for word in ("--item", kind, str(number)))]
    done = subprocess.run(words, input="".join(f"{line}\n" for line in lines), capture_output=True, text=True,
                          check=False, timeout=PATIENCE)
    found = done.stdout.splitlines()
    want(done.returncode == (len(found) == 1 and found[0].startswith("fault")), f"status {done.returncode}: {found}")
    return found


def holds_written_parts(program):
    """The program writes the parts that the rules say, and those of legal histories and of their cuts are legal."""
    parts = illegal = without = cuts = 0
    for seed in range(2 * HISTORIES):
        draw = random.Random(SEED + 1_000 + seed)
        lines = drawn_history(draw, 12)
        lines = damaged(draw, lines) if seed % 3 == 0 else lines
        calls = [read_call(number, line) for number, line in enumerate(lines, 1)]
        is_legal = program.judge(lines).startswith("legal")
        for _ in range(4):
            scope = drawn_scope(draw, calls)
            if not scope.customers and not scope.items:
                continue
            found = written_part(program, lines, scope.customers, scope.items)
            wanted = part_of(calls, scope.customers, scope.items)
            want(found == wanted, f"seed {seed}: the part on {scope.customers} and {scope.items} is {found}, not"
                 f" {wanted}: {lines}")
            without += found[:1] != [] and found[0].startswith("fault")
            if found and not found[0].startswith("fault"):
                bad = is_illegal(program.judge(found))
                parts, illegal = parts + 1, illegal + bad
                want(not bad or not is_legal, f"seed {seed}: legal, but {found} is not: {lines}")
            cuts += holds_written_cut(program, draw, lines, calls, (scope, is_legal))
    want(parts > 800 and illegal > 20 and without > 20, f"too few of a kind: {parts}, {illegal}, {without}")
    want(cuts > 600, f"only {cuts} parts of cuts")
    return f"{parts} written parts, {illegal} of them illegal, and {cuts} parts of cuts"


def holds_written_cut(program, draw, lines, calls, told):
    """The program writes the part of the cut at the end of a line's call, or names what it lacks. Returns whether there
    is such a part."""
    scope, is_legal = told
    line = draw.randint(1, len(lines) + 1)
    found = written_part(program, lines, scope.customers, scope.items, ["--until", str(line)])
    wanted = part_until(calls, line, scope.customers, scope.items)
    want(found == wanted, f"the part on {scope.customers} and {scope.items} until {line} is {found}, not {wanted}:"
         f" {lines}")
    is_part = not found or not found[0].startswith("fault")
    want(not is_legal or not is_part or not is_illegal(program.judge(found)),
         f"legal, but the part until {line}, {found}, is not: {lines}")
    return is_part


def named_by(words):
    """The customers and the items that the words of a scope name."""
    pairs = list(zip(words[::2], words[1::2], strict=True))
    return ({int(number) for name, number in pairs if name == "customer"},
            {(name, int(number)) for name, number in pairs if name != "customer"})


def holds_parts_of_verdicts(program):
    """After a verdict `illegal part L SCOPE`, the part of the cut at the end of line L's call on SCOPE is illegal."""
    found = finer = 0
    for seed in range(MOST_DRAWN):
        draw = random.Random(SEED + 5_000 + seed)
        lines = damaged(draw, damaged(draw, drawn_history(draw, 14)))
        verdict = program.judge(lines).split(" ")
        if verdict[:2] != ["illegal", "part"]:
            continue
        customers, items = named_by(verdict[3:])
        part = written_part(program, lines, customers, items, ["--until", verdict[2]])
        want(part and is_illegal(program.judge(part)), f"seed {seed}: {verdict}, but the part {part} is not: {lines}")
        found += 1
        finer += part != part_as_judged(lines, int(verdict[2]), customers, items)
        if found == PART_VERDICTS:
            break
    want(found == PART_VERDICTS and finer > 0, f"{found} verdicts on parts, and {finer} written parts say more")
    return f"{found} parts of verdicts"


def part_as_judged(lines, line, customers, items):
    """The part of the cut on the scope of the whole history, which may have fewer closed items and whole customers."""
    calls = [read_call(number, text) for number, text in enumerate(lines, 1)]
    return part_until(calls, line, customers, items, calls)


def holds_openings():
    """The tasks of an opening lead to the state."""
    for seed in range(60):
        draw, state = random.Random(SEED + seed), {}
        for _ in range(30):
            state = run(state, read_task(drawn_line(draw)))[1]
        again = {}
        for task in opening_tasks(state):
            reply, again = run(again, read_task(task))
            want(reply == "true", f"seed {seed}: {task} is answered {reply}")
        want(again == state, f"seed {seed}: {again}, not {state}")


def holds_reading():
    """Lines that are no calls are refused."""
    for line in ("", "1 2 3 audit", "x 2 3 newcust 1 -> true", "1 2 3 fly -> true", "1 2 y audit -> 1",
                 "1 2 3 trip 1 -> true", "1 2 3 del flight 1 2 -> true", "1 2 3 update audit -> x"):
        try:
            read_call(1, line)
        except BadLine:
            continue
        raise AssertionError(f"{line!r} was read as a call")


def explain(program, log, *options, wanted=1):
    words = [sys.executable, "-B", ROOT / "explain", log, "--program", program.path, *options]
    done = subprocess.run(list(map(str, words)),
                          capture_output=True, text=True, timeout=PATIENCE, check=False)
    want(done.returncode == wanted, f"explain {log}: status {done.returncode}: {done.stdout}{done.stderr}")
    return done.stdout.splitlines()


# An undetermined call that took effect, as a later answer shows, and one that took none.
UNDETERMINED = """0 0 0 newcust 1 -> true
0 0 0 add car 1 1 50 -> true
1 10 - reserve 1 car 1 -> true
3 10 - newcust 1 -> true
2 20 30 free car 1 -> 0
2 40 50 bill 1 -> 0
""".splitlines()


def holds_undetermined(program, folder):
    """An undetermined call is shown as one that took effect or not, and is one in the smallest run. One that is wrong
    everywhere is left out."""
    log = folder / "log"
    log.write_text("".join(f"{line}\n" for line in UNDETERMINED), encoding="ascii")
    lines = explain(program, log, "--html", folder / "page", "--svg", folder / "picture", "--small", folder / "small",
                    "--work", folder / "work")
    want(any("(took effect or not)" in line and "reserve 1 car 1 -> true" in line for line in lines), f"{lines}")
    want(not any(line.startswith(" line 4 ") for line in lines), f"a call without effect is explained: {lines}")
    small, work = (folder / "small").read_text(encoding="ascii"), (folder / "work").read_text(encoding="ascii")
    want(re.search(r"^1 \d+ - reserve 1 car 1 -> true$", small, re.M) and "1 reserve 1 car 1\n" in work, small + work)
    want("has no end in the log" in (folder / "page").read_text(encoding="utf-8"), "the page does not say so")
    holds_files(program, folder)
    log.write_text("".join(f"{line}\n" for line in UNDETERMINED[:-1]), encoding="ascii")
    want(explain(program, log, wanted=0)[0].startswith("legal"), "calls with an undetermined one are not legal")


class Page(HTMLParser):
    """The elements of a page, with what they name from elsewhere."""

    def __init__(self, text):
        super().__init__()
        self.ids, self.links, self.loaded, self.depth = [], [], [], []
        self.feed(text)

    def handle_starttag(self, tag, attrs):
        found = dict(attrs)
        self.ids += [found["id"]] if "id" in found else []
        self.links += [found["href"]] if "href" in found else []
        self.loaded += [found["src"]] if "src" in found else []
        if tag not in ("meta", "br", "link"):
            self.depth.append(tag)

    def handle_endtag(self, tag):
        want(self.depth and self.depth.pop() == tag, f"</{tag}> closes nothing")


def holds_files(program, folder):
    """The smallest run is illegal, its tasks and the page are there, and nothing comes from elsewhere."""
    verdict = program.judge((folder / "small").read_text(encoding="ascii").splitlines())
    want(is_illegal(verdict), f"the smallest run is {verdict}")
    for line in (folder / "work").read_text(encoding="ascii").splitlines():
        want(line.split(" ", 1)[0].isdecimal(), f"no task of a client: {line}")
        read_task(line.split(" ", 1)[1])
    text = (folder / "page").read_text(encoding="utf-8")
    page = Page(text)
    want(not page.depth and not page.loaded and "http" not in re.sub(r"data:[^\"]*", "", text),
         f"the page is not whole by itself: {page.depth} {page.loaded}")
    want(all(link.startswith("data:image/svg+xml") or link[1:] in page.ids for link in page.links),
         f"a link leads nowhere: {page.links}")
    want(ElementTree.parse(folder / "picture").getroot().tag.endswith("svg"), "the picture is no SVG")


def holds_anomalies(program, folder):
    logs = {path.stem: path for path in (ROOT / "tests/anomalies").glob("*.log")}
    want(set(logs) == set(NAMES), f"anomalies without a name: {set(logs) ^ set(NAMES)}")
    for stem, (kind, forbids, allows) in NAMES.items():
        lines = explain(program, logs[stem], "--html", folder / "page", "--svg", folder / "picture", "--small",
                        folder / "small", "--work", folder / "work")
        text = " ".join(line.strip() for line in lines)
        want(len(lines) <= MOST_LINES and max(map(len, lines)) <= MOST_WIDTH, f"{stem}: too long: {lines}")
        want(lines[1].strip().startswith(kind), f"{stem}: {lines[1]}")
        is_timeless = allows in (SEQUENTIAL, SERIALIZABLE) or stem.endswith("-without-times")
        allowed = "allowed, without their times" if is_timeless else "allowed"
        levels = f"levels (these calls alone): forbidden: {', '.join(LEVELS[:LEVELS.index(forbids) + 1])}" + (
            f"; {allowed}: {', '.join(LEVELS[LEVELS.index(allows):])} proved" if allows else " proved")
        want(levels in text and "proved illegal: " in text and "not proved: " in text, f"{stem}: {lines}")
        want(TOLD.get(stem, "") in text, f"{stem}: {TOLD.get(stem)!r} is not told: {lines}")
        want(stem != "lost-update" or all(f"  {order}" in lines for order in BOTH_ORDERS), f"{stem}: {lines}")
        want(any(line.startswith("verdict: illegal ") for line in lines), f"{stem}: no verdict: {lines}")
        holds_files(program, folder)
        picture = (folder / "picture").read_text(encoding="utf-8")
        want(kind in picture and ("without their times" in picture) == is_timeless, f"{stem}: {picture}")
        want(kind in (folder / "page").read_text(encoding="utf-8"), f"{stem}: the page has another name")


def careless_history(draw):
    """The lines of a history of a runtime that lets a call read an older state and then write to the newest one."""
    states, lines, now = [{}], [], 10
    for line in ("add car 1 2 50", "add room 1 2 60", "newcust 1", "newcust 2"):
        states = [run(states[-1], read_task(line))[1]]
        lines.append(f"0 0 0 {line} -> true")
    ended = {1: 0, 2: 0, 3: 0}
    for _ in range(draw.randint(4, 12)):
        now += 3
        client, task = draw.choice(list(ended)), drawn_line(draw)
        reply, view = transaction(draw.choice(states[-3:] if draw.random() < 0.5 else states[-1:]), read_task(task))
        states.append(states[-1] if draw.random() < 0.1 else applied(states[-1], view.writes))
        begin = max(ended[client], now - draw.randint(0, 9))
        ended[client] = max(begin, now) + draw.randint(0, 2)
        lines.append(f"{client} {begin} {ended[client]} {task} -> {reply}")
        now = max(now, ended[client] - 2)
    return lines


def holds_agreement(program, folder):
    """The names, the levels and the texts of drawn illegal histories agree. A line `states` of a verdict is read."""
    log, count, codes = folder / "log", 0, Counter()
    for seed in range(AGREEING):
        draw = random.Random(SEED + 5_000 + seed)
        lines = careless_history(draw)
        log.write_text("".join(f"{line}\n" for line in lines), encoding="ascii")
        _, verdict = program.judge_file(log, MOST_BLOCKS)
        if not is_illegal(verdict[0]):
            continue
        read = history.Log(log).history(verdict)
        explained, found = findings(read, MOST_BLOCKS, program, log, 2)
        for finding in explained:
            forbids, levels = FORBIDDEN_BY.get(finding.kind.name), finding.levels
            want(forbids is None or not levels.allowed[forbids], f"seed {seed}: {finding.kind.name}, which {forbids}"
                 f" forbids, although it allows the calls: {lines}")
            want("(P4)" not in finding.kind.title() or not levels.allowed[SNAPSHOT], f"seed {seed}: P4: {lines}")
            told = [line for line in verdict if not line.startswith("states ")] + ["states 3"]
            text = explanation([finding], read, told, 3, []).split("\n")
            want(len(finding.few.calls) > 4 or "right is" in " ".join(text), f"seed {seed}: no order: {text}")
            want(len(text) <= MOST_LINES and max(map(len, text)) <= MOST_WIDTH, f"seed {seed}: too long: {text}")
            want("illegal part" not in verdict[0] or "just before, 3 states were" in " ".join(
                line.strip() for line in text), f"seed {seed}: no states: {text}")
            count, codes[finding.kind.name] = count + 1, codes[finding.kind.name] + 1
    want(count > 30 and len(codes) > 4, f"too few findings: {codes}")


# A legal log of which the first line claims to come first.
ANOTHER_ORDER = """2 3 9 price car 7 -> 50
1 0 5 add car 7 100 50 -> true
""".splitlines()


def holds_other_logs(program, folder):
    """A legal log in an illegal order is told as one. A text of another format is named, if all its first lines are."""
    log = folder / "log"
    log.write_text("".join(f"{line}\n" for line in ANOTHER_ORDER), encoding="ascii")
    lines = explain(program, log, wanted=0)
    text = " ".join(line.strip() for line in lines)
    want(text.startswith("legal calls=2 clients=2 legal in another order; in the order of its lines: illegal reply 1"
                         " -1 ")
         and "that order is wrong; or the runtime is wrong" in text, f"{lines}")
    attempts = subprocess.run([built.vacation(), "load", "--clients", "2", "--attempts"], capture_output=True, text=True,
                              check=True, timeout=PATIENCE).stdout
    tasks = subprocess.run([built.vacation(), "tasks", "--tasks", "30"], capture_output=True, text=True, check=True,
                           timeout=PATIENCE).stdout
    keys = '0 10 20 put "a" "1" -> ok\n0 21 30 txn if "a" "1" if "b" - then "b" "1" -> true\n1 25 - get "a" -> ?\n'
    for text, command in ((attempts, "'judge attempts < LOG'"), (keys, "'judge keys < LOG'"),
                          (tasks, "'judge history --tasks LOG < HISTORY'")):
        log.write_text(text, encoding="ascii")
        lines = explain(program, log)
        want(len(lines) == 2 and lines[0].startswith("fault ") and command in lines[1], f"{command}: {lines}")
        first, rest = text.split("\n", 1)
        log.write_text(f"{first}\n1 2 3 fly -> true\n{rest}", encoding="ascii")
        lines = explain(program, log)
        want(len(lines) == 1 and lines[0].startswith("fault "), f"a guess: {lines}")


def holds_logs(program, folder):
    """Legal logs show no contradiction; one with a wrong reply shows it; a damaged one has the judge's fault."""
    for number, options in enumerate((["--clients", "4"], ["--clients", "8", "--items", "4", "--user", "50"])):
        done = subprocess.run([built.vacation(), "load", *options, "--seed", str(number + 1), "--history"],
                              capture_output=True, text=True, check=True, timeout=PATIENCE)
        log = folder / "log"
        log.write_text(done.stdout, encoding="ascii")
        want(explain(program, log, wanted=0)[0].startswith("legal"), "a load's log is not legal")
        calls = [read_call(place, line) for place, line in enumerate(done.stdout.splitlines(), 1)]
        for customers, items in (({1}, ()), ((), {("car", 1)}), ({1, 2}, {("car", 1), ("room", 2)})):
            part = project(calls, Scope(frozenset(customers), frozenset(items), Bookings(calls)))
            want(len(part) > 2 and first_wrong(part) is None, f"a part of a legal log is wrong: {customers}, {items}")
    holds_wrong_log(program, log, done.stdout.splitlines())


def holds_wrong_log(program, log, lines):
    """A wrong bill in a long log is found, also if only the place is read that the verdict names."""
    place = next(place for place, line in enumerate(lines) if place > 300 and re.search(r" leave \d+ -> [1-9]", line))
    wrong = [*lines[:place], re.sub(r"-> (\d+)$", lambda found: f"-> {int(found[1]) + 7}", lines[place]),
             *lines[place + 1:]]
    log.write_text("".join(f"{line}\n" for line in wrong), encoding="ascii")
    text = explain(program, log)
    want(any(line.startswith(f" *line {place + 1} ") for line in text), f"line {place + 1} is wrong: {text}")
    _, verdict = program.judge_file(log, MOST_BLOCKS)
    history.SMALL = 10
    read = history.Log(log).history(verdict)
    want(not read.is_whole and len(read.calls) < read.count, "a large log was read whole")
    found, _ = findings(read, MOST_BLOCKS, program)
    want([one.found.call.number for one in found] == [place + 1] and found[0].is_confirmed,
         f"line {place + 1} is wrong, and of a large log: {[one.numbers for one in found]}")
    log.write_text("".join(f"{line}\n" for line in [*lines[:9], "1 2 3 fly -> true", *lines[9:]]), encoding="ascii")
    want(explain(program, log) == ["fault bad-command 10"], "a damaged log has another fault")


def holds_pages(program, folder):
    """The picture and the smallest run of the pages are those of the log that the repository has."""
    shown = ROOT / "docs/anomaly"
    lines = explain(program, shown / "postgresql.log", "--blocks", MOST_BLOCKS, "--svg", folder / "picture", "--small",
                    folder / "small", "--work", folder / "work")
    want(lines[0] == "illegal: lines 66 and 817 contradict each other", f"PostgreSQL's log: {lines}")
    for made, kept in (("picture", "../anomaly.svg"), ("small", "smallest.log"), ("work", "smallest.tasks")):
        want((folder / made).read_bytes() == (shown / kept).read_bytes(), f"docs/anomaly/{kept} is made otherwise now")


def main():
    named = built.judge()
    if not os.access(named, os.X_OK):
        sys.exit(f"explain: there is no program at {named}: './judge' builds it")
    program = Program(Path(named))
    with tempfile.TemporaryDirectory(prefix="explain-test-") as folder:
        try:
            holds_model(built.vacation())
            holds_reading()
            holds_openings()
            counted = holds_parts(program)
            written = holds_written_parts(program)
            of_verdicts = holds_parts_of_verdicts(program)
            holds_anomalies(program, Path(folder))
            holds_agreement(program, Path(folder))
            holds_other_logs(program, Path(folder))
            holds_undetermined(program, Path(folder))
            holds_logs(program, Path(folder))
            holds_pages(program, Path(folder))
        except AssertionError as wrong:
            sys.exit(f"explain: {wrong}")
    print(f"explain: {len(NAMES)} anomalies have their names; {counted}, {written} and {of_verdicts}"
          " as they should be")


if __name__ == "__main__":
    main()
