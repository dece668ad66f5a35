#!/usr/bin/env python3
"""Tests the harness of benchmark/databases, and by it the databases that are installed. Its rules in SQL and over
keys and values answer random scripts as the program does; clients, recorders, schedules and summaries do as they
should over sessions that fail as they are told; SQLite keeps its promises while it is killed, and while it loses
its power if the rights are there. Mistakes on purpose are found, a fault without effect and a run without a
completed call are cut short. SIGTERM and SIGINT end the harness and all that it started; after SIGKILL nothing
stays but a folder, which the next run removes. PostgreSQL, MariaDB, Redis and etcd have one short run each if they
are installed. Takes at most three minutes; with VACATION_ALL_FAULTS set, mistakes are also planted in the other
databases, and the harness is ended ten times by each of the signals.

The argument is the program; with none it is the one that the last build left."""

import os
import random
import re
import signal
import subprocess
import sys
import tempfile
import time
from concurrent.futures import ThreadPoolExecutor
from contextlib import contextmanager
from datetime import date
from itertools import islice
from pathlib import Path

ROOT = Path(__file__).resolve().parent.parent
sys.dont_write_bytecode = True
sys.path.insert(0, str(ROOT / "tests"))
import built
import scripted
from scripted import Memory, Tables, want
from harness import runs
from harness.clients import Behaviour
from harness.crew import Crew, Target
from harness.database import Database, Strength
from harness.faults import FAULTS, Fault
from harness.judge import Programs, Verdict, judge
from harness.keyvalue import Store
from harness.outcomes import CutShort, Damaged, Lost, Missing, NoEffect, Refused, Unknown
from harness.progress import Progress
from harness.processes import family, has_ended
from harness.program import check_installed, databases, line_of
from harness.runs import Plan, gaps
from harness.sessions import StoreSession
from harness.sql import Connection, SqlRules
from harness.summary import FINE, NOTHING, WRONG, Summary
from harness.tasks import draw_keys
from harness.workers import side_by_side, workers

RUN = ROOT / "benchmark" / "databases" / "run"
# How long a harness may take, in seconds. Each run bounds itself; only a machine that is very busy comes near.
PATIENCE = 400
# How often a run that must be legal is done if it is cut short, as it may be on a machine that is very busy.
TRIES = 3
# Harnesses that run at once.
AT_ONCE = 3
# Seeds in which a mistake on purpose must be found.
MOST_SEEDS = 10
# Lines of a database file.
MOST_LINES = 120
# Blocks of the random scripts: most entries are refused, some are, none is. The most have the limits, too.
SCRIPT_BLOCKS = (6, 20, 1024)
NO_BOUND = 262144
SCRIPT_LINES = 300
NAMES = ("needs-count-and-price", "total-limit", "full", "no-item", "not-free", "in-use", "exists",
         "no-customer", "sold-out", "unit-limit", "not-booked")


def drawn_change(draw):
    """Returns an `add` or a `del` line."""
    kind, item = draw.choice(["car", "flight", "room"]), draw.randint(1, 4)
    if draw.random() < 0.6:
        return f"add {kind} {item} {draw.choice([0, 1, 2, 150])} {draw.choice(['-', 0, 50, 60, 1000000])}"
    return f"del flight {item}" if kind == "flight" else f"del {kind} {item} {draw.choice([0, 1, 2, 150])}"


def drawn_line(draw):
    """Returns a line of the table of commands and tasks."""
    who, item = draw.randint(1, 4), f"{draw.choice(['car', 'flight', 'room'])} {draw.randint(1, 4)}"
    asks = " ".join(f"{draw.choice(['car', 'flight', 'room'])} {draw.randint(1, 5)}"
                    for _ in range(draw.randint(1, 6)))
    return draw.choice([
        drawn_change(draw), drawn_change(draw), drawn_change(draw), f"newcust {who}", f"newcust {who}",
        f"dropcust {who}", f"free {item}", f"price {item}", f"bill {who}", f"reserve {who} {item}",
        f"reserve {who} {item} {draw.choice([1, 2, 100])}", f"reserve {who} {item}", f"cancel {who} {item}",
        f"cancel {who} {item}", "audit", f"trip {who} {asks}", f"trip {who} {asks}", f"leave {who}",
        "update " + " ; ".join(drawn_change(draw) for _ in range(draw.randint(1, 5)))])


# Six entries, and then, with six blocks, what needs a seventh and what needs none.
EDGES = ["add car 1 5 10", "add car 2 5 20", "add room 1 2 30", "newcust 1", "newcust 2", "reserve 1 car 1",
         "reserve 1 car 1 2", "reserve 1 car 2", "newcust 3", "newcust 2", "add room 2 1 5", "add room 1 1 -",
         "del room 1 3", "free room 1", "price room 1", "reserve 1 car 2", "bill 1", "audit"]


def limits():
    """Returns lines that come to the most units of an item and of a booking, with the greatest numbers."""
    lines = ["add car 4294967295 1000000 1000000"] + ["add car 4294967295 1000000 -"] * 999
    lines += ["add car 4294967295 1 -", "newcust 4294967295"]
    lines += ["reserve 4294967295 car 4294967295 100"] * 100
    return lines + ["reserve 4294967295 car 4294967295", "bill 4294967295", "audit"]


def script(blocks):
    """Returns the lines of a script."""
    draw = random.Random(blocks)
    lines = EDGES + [drawn_line(draw) for _ in range(SCRIPT_LINES)]
    return lines + (limits() if blocks >= max(SCRIPT_BLOCKS) else [])


def same_replies(program, name, reply_for, all_blocks):
    """Compares the replies of rules to the lines of each script with those of the program."""
    found = set()
    for blocks in all_blocks:
        lines, reply = script(blocks), reply_for(blocks)
        done = subprocess.run([program, "run", "--blocks", str(blocks)], text=True, capture_output=True, check=True,
                              input="".join(f"{line}\n" for line in lines), timeout=PATIENCE)
        for place, (line, wanted) in enumerate(zip(lines, done.stdout.splitlines(), strict=True), 1):
            said = reply(line)
            want(wanted == said, f"{name}, {blocks} blocks, line {place}, {line}: {said!r}, not {wanted!r}")
            found.update(word.partition(":")[2] or word.partition("=")[2] or word for word in said.split(" "))
    return found


def key_value_reply(_blocks):
    """Returns a function that runs a line as one transaction over keys and values."""
    session = StoreSession(Memory())
    return lambda line: session.call(line, None)


def holds_keys():
    """Operations on single keys reply as those of a dictionary, in SQL and over keys and values."""
    lines = draw_keys(1, SCRIPT_LINES, 40, 1).clients[1]
    for name, reply in (("SQL", SqlRules(Tables()).reply), ("keys and values", key_value_reply(NO_BOUND))):
        held = {}
        for place, line in enumerate(lines, 1):
            operation, key, *values = line.split(" ")
            wanted = held.get(key, "-") if operation == "get" else "ok"
            if operation == "cas":
                wanted = "true" if held.get(key) == values[0] else "false"
            if wanted in ("ok", "true"):
                held[key] = values[-1]
            said = reply(line)
            want(said == wanted, f"{name}, line {place}, {line}: {said!r}, not {wanted!r}")


def holds_rules(program):
    """The rules answer as the program does, with each refusal."""
    found = same_replies(program, "SQL", lambda blocks: SqlRules(Tables(), blocks).reply, SCRIPT_BLOCKS)
    want(found.issuperset(NAMES), f"never refused: {set(NAMES) - found}")
    same_replies(program, "keys and values", key_value_reply, [NO_BOUND])


def holds_schedules():
    """A seed fixes the schedule; a failover comes once, in the middle of a run."""
    def drawn(name, seed):
        return list(islice(gaps(FAULTS[name], seed, 6.0), 5))

    for name in FAULTS:
        want(drawn(name, 3) == drawn(name, 3) != drawn(name, 4), f"schedule of {name}")
        want(all(gap > 0 for gap in drawn(name, 3)), f"schedule of {name}")
    want(len(drawn("failover", 1)) == 1 and 1.8 <= drawn("failover", 1)[0] <= 3.6, "the time of a failover")
    want(all(0 < next(gaps(fault, 1, 1.0)) < 1 for fault in FAULTS.values()), "a fault in a run of a second")


# What is promised, how runs end, the conclusion and the status.
SUMMARIES = [
    (Strength.KEPT, [Verdict.LEGAL, Verdict.UNDECIDED], "kept", FINE),
    (Strength.KEPT, [Verdict.LEGAL, Verdict.ILLEGAL], "BROKEN", WRONG),
    (Strength.KEPT, [Verdict.LEGAL, Verdict.DAMAGED], "BROKEN", WRONG),
    (Strength.KEPT, [Verdict.CUT_SHORT, Verdict.CUT_SHORT], "no verdict", NOTHING),
    (Strength.LESS, [Verdict.LEGAL, Verdict.ILLEGAL], "-", FINE),
    (Strength.WRONG, [Verdict.LEGAL, Verdict.ILLEGAL], "found", FINE),
    (Strength.WRONG, [Verdict.LEGAL, Verdict.CUT_SHORT], "NOT FOUND", WRONG),
]


def holds_summaries():
    """The summary counts verdicts by case, and says whether promises were kept."""
    for strength, verdicts, conclusion, status in SUMMARIES:
        summary = Summary()
        for verdict in verdicts:
            summary.add({"database": "a:b", "fault": "kill", "policy": "ask", "mistake": None, "version": "1.2",
                         "promise": strength.value, "source": "https://example.org/manual",
                         "verdict": verdict.value, "counts": {"completed": 7}})
        row = next(iter(summary.rows.values()))
        want((row.conclusion, summary.status) == (conclusion, status), f"{strength}, {verdicts}: {row.conclusion}")
        want(conclusion in summary.text().splitlines()[-1], f"the table: {summary.text()}")
    want(Summary().status == NOTHING, "the status if everything is skipped")


# Runs of the cases below: fault, workload, promise, verdicts. Then what the page says of them.
RESULTS = [
    ("kill", "reservations", Strength.KEPT, [Verdict.LEGAL]), ("kill", "keys", Strength.KEPT, [Verdict.LEGAL] * 2),
    ("power", "reservations", Strength.WRONG, [Verdict.ILLEGAL, Verdict.DAMAGED]),
]
PAGE = """Made on 2 May 2026 by `benchmark/databases/run`.

| a 1.2 | kill | power | Calls |
|---|---|---|--:|
| `b` | [kept](https://example.org/manual): one legal; keys 2 of 2 | found: one illegal, 1 damaged | 35 |
"""
HEADLINE = ("**5 runs, 35 completed calls, 1 setting of 1 database. No documented promise was broken, in 2 cases and"
            " 3 runs. Every planted mistake was found, in 2 of 2 runs.**\n")


def holds_results():
    """The page has a headline, and a matrix in which one judged run is told as one."""
    summary = Summary()
    for fault, workload, strength, verdicts in RESULTS:
        source = "fsync does nothing" if strength is Strength.WRONG else "https://example.org/manual"
        for verdict in verdicts:
            summary.add({"database": "a:b", "fault": fault, "policy": "ask", "mistake": None, "version": "1.2",
                         "workload": workload, "promise": strength.value, "source": source,
                         "verdict": verdict.value, "counts": {"completed": 7}})
    want(summary.markdown(date(2026, 5, 2)) == PAGE, f"the results of the page: {summary.markdown(date(2026, 5, 2))}")
    want(summary.headline() == HEADLINE, f"the headline of the page: {summary.headline()}")


def holds_side_by_side(folder):
    """Runs side by side share no worker, and their records come in the order of the plans. A worker that has ended
    ends the harness, with a reason."""
    free = {"first", "second"}

    def do(worker, plan):
        free.remove(worker)
        time.sleep(0.01 * (plan % 3))
        free.add(worker)
        return plan

    want(side_by_side(sorted(free), iter(range(9)), do) == list(range(9)), "the order of runs side by side")
    want(side_by_side([], iter(()), do) == [], "no run")
    os.environ["PYTHONPATH"] = str(RUN.parent)
    with workers(1, folder) as started:
        for pid in family(os.getpid())[1:]:
            os.kill(pid, signal.SIGKILL)
        try:
            started[0].do(None, None, print)
            raise AssertionError("a worker that has ended did a run")
        except CutShort as error:
            want("ended with status -9" in str(error), f"a worker that has ended: {error}")


def holds_judge_bounds(folder):
    """A judge that takes too long, or writes nothing, leaves a history undecided; its wait is reported."""
    history, said = folder / "empty.calls", []
    history.write_text("", encoding="ascii")
    late = judge(["sleep", "30"], history, said.append, patience=1.5)
    want((late.verdict, late.lines) == (Verdict.UNDECIDED, ["undecided: no verdict within 2 seconds"]), f"{late}")
    want(len(said) >= 2 and late.seconds < 10, f"the progress of a judge: {said}, {late.seconds} seconds")
    silent = judge(["false"], history, said.append)
    want(silent.lines == ["undecided: the judge ended with status 1"], f"{silent}")


def holds_pending():
    """A run ends early if one more pending call of each client may be too many to judge, but not before the first."""
    for clients, enough in ((4, 6), (9, 1), (20, 1)):
        crew = Crew(Target(None, None, ()), Behaviour(), {number: [] for number in range(1, clients + 1)})
        for count in range(enough):
            want(not crew.has_enough_pending(), f"{clients} clients, {count} pending calls")
            crew.recorders[1].counts["pending"] += 1
        want(crew.has_enough_pending(), f"{clients} clients, {enough} pending calls")


class Idle(Fault):
    """A fault of which each n-th has an effect, or none."""
    every = 0.1

    def __init__(self, effects=0):
        self._effects, self._count = effects, 0

    def inject(self, scene):
        self._count += 1
        if self._effects and self._count % self._effects == 0:
            return "an effect"
        raise NoEffect("nothing was done")


class Quiet(Progress):
    """No progress."""

    def say(self, text):
        pass


def run_here(program, folder, **plan):
    """Does a short run of SQLite in this process, and returns its result."""
    sqlite = databases()["sqlite"]
    one = Plan(sqlite, "sqlite:wal-full", sqlite.settings["wal-full"], **{"seed": 1, "seconds": 1.5, **plan})
    (folder / "templates").mkdir(exist_ok=True)
    place = Path(tempfile.mkdtemp(dir=folder)) / "run"
    (place.parent / "templates").mkdir()
    return runs.run(one, Programs(str(program), built.judge(program)), place, Quiet())


@contextmanager
def changed(of, name, value):
    """Gives an entry of a dictionary, or a name of a module, another value."""
    entries = of if isinstance(of, dict) else vars(of)
    before, entries[name] = entries[name], value
    try:
        yield
    finally:
        entries[name] = before


def holds_cut_short(program, folder):
    """Runs that say nothing are never legal, and faults without effect are not counted."""
    with changed(runs, "MOST_LONGER", 0.0):
        none = run_here(program, folder, fault="none", seconds=0.0)
    want((none.verdict, none.reason) == (Verdict.CUT_SHORT, "no call was completed"), f"no call: {line_of(none)}")
    want({"completed", "refused", "lost", "pending"} <= set(none.record["counts"]), f"counts: {none.record}")
    with changed(FAULTS, "kill", Idle()):
        idle = run_here(program, folder, fault="kill", seconds=0.5)
    want(idle.verdict is Verdict.CUT_SHORT and "nothing was done" in idle.reason, f"no effect: {line_of(idle)}")
    with changed(FAULTS, "kill", Idle(effects=2)):
        half = run_here(program, folder, fault="kill")
    want(half.verdict is Verdict.LEGAL, f"some faults have an effect: {line_of(half)}")
    without = sum("effect" not in fault for fault in half.record["faults"])
    told = f" faults={len(half.record['faults']) - without} no-effect={without} "
    want(0 < without < len(half.record["faults"]) and told in line_of(half), f"no effect: {line_of(half)}")
    early = run_here(program, folder, fault="kill", seconds=0.1)
    want(early.verdict is Verdict.LEGAL and early.record["faults"], f"a workload too short: {line_of(early)}")


def holds_errors(program, folder):
    """An error that nobody expects cuts a run short, and the record has it."""
    with changed(runs, "make_tables", None):
        failed = run_here(program, folder, fault="none")
    want(failed.verdict is Verdict.CUT_SHORT and "TypeError" in failed.reason, f"an error: {line_of(failed)}")
    want(any("not callable" in note for note in failed.record["notes"]), "its record")


def harness(program, folder, *options, wanted=(0,)):
    """Runs the harness and returns its lines."""
    words = [RUN, "--program", program, "--judge", built.judge(program), *options]
    done = subprocess.run(words, text=True, capture_output=True, check=False,
                          env=os.environ | {"TMPDIR": str(folder)}, timeout=PATIENCE)
    want(done.returncode in wanted, f"{options}: status {done.returncode}:\n{done.stdout}{done.stderr[-2000:]}")
    return done.stdout.splitlines()


def verdict_of(line):
    """Returns the verdict of a run's line."""
    return line.partition(" verdict=")[2].partition(" (")[0]


def holds_missing():
    """A database whose parts are missing names its packages."""
    for missing in ({"modules": ("no_such_module",)}, {"programs": ("no-such-program",)}):
        database = databases()["sqlite"]
        for name, value in missing.items():
            setattr(database, name, value)
        database.packages = ("its-package",)
        try:
            check_installed(database)
            raise AssertionError(f"{missing} was not missed")
        except Missing as error:
            want("no" in str(error) and "apt-get install its-package" in str(error), f"{missing}: {error}")
        finally:
            for name in (*missing, "packages"):
                delattr(database, name)


def holds_page():
    """The page on a new database names each part of its class, its connections and its errors; no file is too long."""
    page = (ROOT / "benchmark/databases/README.md").read_text(encoding="utf-8")
    for kind in (Database, Connection, Store):
        for part in filter(lambda part: part[0] != "_", vars(kind)):
            want(re.search(rf"`{part}\b", page), f"the page on a new database has no {kind.__name__}.{part}")
    for error in (Refused, Lost, Unknown, Damaged):
        want(f"| `{error.__name__}` |" in page, f"the page on a new database has no {error.__name__}")
    for file in (ROOT / "benchmark/databases/servers").glob("*.py"):
        count = len(file.read_text(encoding="utf-8").splitlines())
        want(count <= MOST_LINES, f"{file.name} has {count} lines")


# What must be legal: databases with a fault. Only the first needs neither packages nor rights.
LEGAL = [("sqlite:wal-full", "kill", "--runs", "2", "--jobs", "2"), ("sqlite:wal-full", "power"),
         ("postgresql:serializable", "kill"), ("mariadb:serializable", "kill"), ("redis:always", "cut"),
         ("etcd:default", "kill")]
KEYS = ["--workload", "keys"]
LEGAL_KEYS = [("redis:always", "kill", *KEYS), ("etcd:default", "partition", *KEYS)]


def lines_of_runs(program, folder, *options):
    """Returns the lines of runs, which are printed. A database that is not there is skipped."""
    lines = [line for line in harness(program, folder, *options, wanted=(0, 1, 3))
             if " verdict=" in line or " skipped: " in line]
    print("\n".join(f"databases: {line}" for line in lines), flush=True)
    return lines


def holds_legal(program, folder, name, fault, *more):
    """A database keeps its promise under a fault."""
    for seed in range(1, TRIES + 1):
        options = (name, "--fault", fault, *more, "--seconds", "3", "--seed", str(seed))
        lines = lines_of_runs(program, folder, *options)
        if not any(verdict_of(line) == "cut short" for line in lines):
            break
    may_skip = (name, fault, *more) != LEGAL[0]
    want(lines and all(verdict_of(line) == "legal" or may_skip and " skipped: " in line for line in lines), lines)


# Mistakes on purpose: options of the harness. Found within ten seeds, or the harness says that they were not.
PLANTED = [
    ["sqlite:wal-full", "--fault", "none", "--mistake", "split"],
    ["sqlite:wal-full", "--fault", "none", "--mistake", "early-end"],
    ["sqlite:wal-full", "--fault", "kill", "--policy", "leave", "--mistake", "forget"],
    ["sqlite:wal-full", "--fault", "kill", "--policy", "leave", "--mistake", "same-client"],
    ["sqlite:wal-full", "--fault", "kill", "--policy", "again"],
    ["sqlite:lie", "--fault", "power"],
    ["redis:always", "--fault", "cut", "--policy", "again"],
    ["redis:no-watch", "--fault", "none"],
]
PLANTED_KEYS = [["redis:no-watch", "--fault", "none", *KEYS]]
MORE_PLANTED = [
    ["postgresql:serializable", "--fault", "cut", "--policy", "again"],
    ["postgresql:deferrable", "--fault", "none", "--mistake", "early-end"],
    ["postgresql:lie", "--fault", "power"],
    ["mariadb:serializable", "--fault", "cut", "--policy", "again"],
    ["mariadb:lie", "--fault", "power"],
    ["redis:lie", "--fault", "power"],
    ["etcd:no-compare", "--fault", "none"],
]
MORE_PLANTED_KEYS = [
    ["etcd:no-compare", "--fault", "none", *KEYS],
    ["redis:lie", "--fault", "power", *KEYS],
    ["redis:always", "--fault", "cut", "--policy", "again", *KEYS],
    ["sqlite:wal-full", "--fault", "none", "--mistake", "split", *KEYS],
]


def holds_planted(program, folder, options):
    """A mistake on purpose is found within ten seeds."""
    for seed in range(1, MOST_SEEDS + 1):
        line = harness(program, folder, *options, "--seed", str(seed), "--seconds", "2.5", wanted=(0, 1, 3))[0]
        if " skipped: " in line:
            want("no such fault" not in line, line)
            print(f"databases: {line}", flush=True)
            return
        if verdict_of(line) in ("illegal", "damaged"):
            print(f"databases: {' '.join(options)}: found with seed {seed}", flush=True)
            return
    raise AssertionError(f"{' '.join(options)} was not found with {MOST_SEEDS} seeds")


# What runs when the harness is ended: a network for each node, a standby, a file system on a loop device, clients
# alone. The last two need no packages.
RUNNING = [["etcd:default", "--fault", "partition"], ["postgresql:sync", "--fault", "failover"],
           ["sqlite:wal-full", "--fault", "power"], ["sqlite:wal-full", "--fault", "kill"]]
# The latest moment at which the harness is ended, in seconds.
LATEST = 4.0
# Signals, and how often the harness is ended by each with VACATION_ALL_FAULTS.
ENDING, ENDED_OFTEN = (signal.SIGTERM, signal.SIGINT, signal.SIGKILL), 10


def spaces_of(pids):
    """Returns the namespaces of processes."""
    found = set()
    for pid in pids:
        for name in ("pid", "mnt", "net"):
            try:
                found.add((name, os.readlink(f"/proc/{pid}/ns/{name}")))
            except OSError:
                continue
    return found


def started_at(pid):
    """Returns when a process started, in seconds since the machine did, or infinity if it has ended."""
    try:
        fields = Path(f"/proc/{pid}/stat").read_text(encoding="ascii", errors="replace").rsplit(")", 1)[1].split()
    except OSError:
        return float("inf")
    return int(fields[19]) / os.sysconf("SC_CLK_TCK")


def older_in(spaces, moment):
    """Returns the processes that have one of the namespaces and started before a moment. (The kernel gives the
    number of a namespace that has ended to the next one, of any harness.)"""
    return [int(entry) for entry in filter(str.isdigit, os.listdir("/proc"))
            if spaces_of([entry]) & spaces and started_at(entry) < moment]


def wait_for(holds, what, seconds=20):
    """Waits until a condition holds."""
    limit = time.monotonic() + seconds
    while not holds():
        want(time.monotonic() < limit, what)
        time.sleep(0.05)


def losetup():
    """Returns the loop devices, each with the file behind it."""
    done = subprocess.run(["losetup", "--list", "--noheadings", "--output", "NAME,BACK-INO,BACK-MAJ:MIN"], text=True,
                          capture_output=True, check=False)
    return [tuple(line.split()) for line in done.stdout.splitlines()]


def loops_of(pids):
    """Returns the loop devices that processes have mounted."""
    mounted = set()
    for pid in pids:
        try:
            mounts = Path(f"/proc/{pid}/mountinfo").read_text(encoding="utf-8")
            mounted.update(re.findall(r" (/dev/loop\d+) ", mounts))
        except OSError:
            continue
    return {loop for loop in losetup() if loop[0] in mounted}


def catches(pid, number):
    """Returns whether a process has a handler for a signal."""
    try:
        status = Path(f"/proc/{pid}/status").read_text(encoding="ascii", errors="replace")
    except OSError:
        return False
    return bool(int(re.search(r"^SigCgt:\s*(\w+)", status, re.M)[1], 16) >> number - 1 & 1)


def end_harness(program, folder, number, options, is_late):
    """Ends a harness by a signal at a random moment after it took over its signals (while Python starts, SIGINT gives
    status 1), or after the first calls. Returns how many processes and loop devices it had. No process, namespace or
    loop device stays, and no folder but after SIGKILL."""
    progress = folder / "progress"
    with open(progress, "wb") as file:
        started = subprocess.Popen([RUN, "--program", program, *options, "--runs", "9", "--keep", folder / "kept"],
                                   stdout=subprocess.DEVNULL, stderr=file, env=os.environ | {"TMPDIR": str(folder)})
    try:
        wait_for(lambda: started.poll() is not None or catches(started.pid, signal.SIGTERM), "no handlers", PATIENCE)
        if is_late:
            wait_for(lambda: started.poll() is not None or b" calls, " in progress.read_bytes(), "no calls", PATIENCE)
        moment = random.uniform(0, LATEST)
        time.sleep(moment)
        pids = family(started.pid)
        spaces, loops = spaces_of(pids) - spaces_of(["self"]), loops_of(pids)
    finally:
        ended_at = time.clock_gettime(time.CLOCK_BOOTTIME)
        started.send_signal(number)
        status = started.wait(PATIENCE)
    if status == NOTHING:
        return 0, 0  # skipped: a package or a right is missing
    since = "the first calls" if is_late else "its start"
    what = f"{' '.join(options)}, {number.name} {moment:.2f} seconds after {since}"
    want(status in (-number, 128 + number), f"{what}: status {status}")
    wait_for(lambda: all(map(has_ended, pids)) and not older_in(spaces, ended_at),
             f"{what}: a process stayed")
    wait_for(lambda: not loops & set(losetup()), f"{what}: a loop device stayed")
    left = list(folder.glob("vacation-databases-*"))
    want(len(left) <= (number == signal.SIGKILL), f"{what}: {left}")
    return len(pids), len(loops)


def holds_ended(program, folder, running, number, times):
    """A signal to the harness at random moments leaves nothing but, of SIGKILL, a folder, which the next run
    removes."""
    own, counts = folder / number.name, []
    own.mkdir(mode=0o711, exist_ok=True)
    for position in range(times):
        options = running[(position + number + 1) % len(running)]
        is_late = (position // len(running) + number) % 2 == 1
        counts.append(end_harness(program, own, number, options, is_late))
        if number == signal.SIGKILL:
            harness(program, own, "sqlite:wal-full", "--fault", "none", "--seconds", "0.1")
            want(not list(own.glob("vacation-databases-*")), "the folder of a killed harness stayed")
    print(f"databases: ended {times} times by {number.name}, with processes and loop devices {counts}:"
          " nothing stayed", flush=True)


def at_once(jobs):
    """Calls functions with arguments, some at once: each harness has namespaces of its own."""
    with ThreadPoolExecutor(AT_ONCE) as pool:
        for done in [pool.submit(*job) for job in jobs]:
            done.result()


def main():
    program = Path(sys.argv[1] if len(sys.argv) > 1 else ROOT / "crates/vacation/out/vacation").resolve()
    if not os.access(program, os.X_OK):
        sys.exit(f"databases: there is no program at {program}: './vacation' builds it")
    began = time.monotonic()
    with tempfile.TemporaryDirectory(prefix="vacation-test-databases-") as name:
        folder = Path(name)
        folder.chmod(0o711)  # users of servers go through it
        try:
            holds_rules(program)
            holds_keys()
            for test in (scripted.holds_policies, scripted.holds_tokens, scripted.holds_times,
                         scripted.holds_kills, holds_schedules, holds_summaries, holds_results, holds_missing,
                         holds_page):
                test()
            holds_pending()
            holds_side_by_side(folder)
            holds_judge_bounds(folder)
            holds_cut_short(program, folder)
            holds_errors(program, folder)
            is_long = bool(os.environ.get("VACATION_ALL_FAULTS"))
            running, times = (RUNNING, ENDED_OFTEN) if is_long else (RUNNING[-2:], 1)
            legal, planted = LEGAL + LEGAL_KEYS, PLANTED + PLANTED_KEYS
            planted = planted + (MORE_PLANTED + MORE_PLANTED_KEYS if is_long else [])
            at_once([*((holds_ended, program, folder, running, number, times) for number in ENDING),
                     *((holds_legal, program, folder, *case) for case in legal),
                     *((holds_planted, program, folder, options) for options in planted)])
        except AssertionError as wrong:
            sys.exit(f"databases: {wrong}")
    print(f"databases: all as they should be, in {time.monotonic() - began:.0f} seconds")


if __name__ == "__main__":
    main()
