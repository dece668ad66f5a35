"""A run: starts a database, lets clients make calls while a fault is injected, reads the final state, and has
the history of all calls judged."""

import json
import platform
import signal
import time
import traceback
from collections import Counter
from collections.abc import Callable, Iterator
from contextlib import ExitStack, contextmanager
from dataclasses import dataclass, field
from math import ceil
from pathlib import Path
from random import Random

from harness.clients import Behaviour, Client
from harness.cluster import Cluster, Needs
from harness.crew import Crew, Target
from harness.database import Database, Promise, Setting, Strength
from harness.faults import FAULTS, NO_FAULT, Fault, Scene
from harness.judge import Programs, Verdict, judge
from harness.outcomes import CutShort, Damaged, Lost, NoEffect, Refused
from harness.progress import Progress
from harness.records import Call, Mistake, Policy, Recorder, Seat
from harness.sessions import make_tables
from harness.tasks import Load, Workload, draw, draw_keys

# Items of each kind, tasks of each client for each second of the workload (more than it can do), and how many of a
# hundred tasks are trips and only read.
ITEMS = 8
TASKS = 2_500
TRIPS = 60
READS = 20
# Seat of the harness's own final reads.
FINAL = 999
# How long the setup phase, the look-up of all tokens, and the final reads may take, in seconds.
FINAL_PATIENCE = 40.0
# How much longer than planned a workload may be on a busy machine, in seconds, and how many faults without effect
# it may have before its planned end.
MOST_LONGER, MOST_IDLE = 60.0, 5
# Ends of calls and tries that each record counts.
COUNTED = ("completed", "refused", "lost", "unknown", "pending")
# Notes of errors that a record keeps.
MOST_NOTES = 50
# Frames of an error of the harness that a record keeps.
MOST_FRAMES = 6
# A run beyond its workload and all bounds of its parts is stopped after so many seconds.
MOST_SECONDS = 300


@dataclass(frozen=True)
class Plan:
    """What is run. Without a fault, `fault` is `none`."""
    database: Database
    name: str
    setting: Setting
    fault: str
    seed: int
    policy: Policy = Policy.ASK
    mistake: Mistake | None = None
    seconds: float = 6.0
    clients: int = 4
    lag: float = 0.5
    reads: int = READS
    workload: Workload = Workload.RESERVATIONS

    @property
    def promise(self) -> Promise:
        """What is promised: what the manual promises under the fault, unless the clients are wrong."""
        if self.mistake:
            return Promise(Strength.WRONG, f"the clients or their recorder make the mistake {self.mistake.value}")
        if self.policy is Policy.AGAIN:
            loses_replies = self.fault in ("cut", "kill")
            return Promise(Strength.WRONG if loses_replies else Strength.LESS, "unknown tasks are tried again")
        return self.setting.promises[self.fault]


@dataclass(frozen=True)
class Result:
    """How a run ended, its record, and its history."""
    plan: Plan
    verdict: Verdict
    reason: str
    record: dict
    history: Path


@dataclass
class Trace:
    """What is written down while a run goes on."""
    calls: list[Call] = field(default_factory=list)
    counts: Counter = field(default_factory=Counter)
    faults: list[dict] = field(default_factory=list)
    notes: list[str] = field(default_factory=list)
    ended_early: str = ""

    @property
    def injected(self) -> int:
        """Number of faults whose effect was seen."""
        return sum("effect" in fault for fault in self.faults)

    def add(self, recorder: Recorder) -> None:
        """Adds the record of a client."""
        self.calls += recorder.calls
        self.counts += recorder.counts
        self.notes += recorder.notes


def gaps(fault: Fault, seed: int, seconds: float) -> Iterator[float]:
    """Draws the schedule of a fault: the time before the first, and between the end of one and the begin of
    the next, in seconds."""
    drawn = Random(f"schedule {seed}")
    if fault.is_single:
        yield drawn.uniform(0.3, 0.6) * seconds
        return
    yield drawn.uniform(0.5, 1) * min(fault.every, seconds / 3)
    while True:
        yield drawn.uniform(0.5, 1.5) * fault.every


@contextmanager
def time_limit(seconds: float) -> Iterator[None]:
    """Ends what is entered by `CutShort` after so many seconds, for waits that nothing else bounds."""
    def stop(*_):
        raise CutShort(f"the run took longer than {seconds:.0f} seconds")

    before = signal.signal(signal.SIGALRM, stop)
    signal.setitimer(signal.ITIMER_REAL, seconds)
    try:
        yield
    finally:
        signal.setitimer(signal.ITIMER_REAL, 0)
        signal.signal(signal.SIGALRM, before)


class Run:
    """One run of a plan, in an empty folder."""

    def __init__(self, plan: Plan, programs: Programs, folder: Path, progress: Progress):
        self._plan, self._programs, self._folder, self._progress = plan, programs, folder, progress
        self._fault = None if plan.fault == NO_FAULT else FAULTS[plan.fault]
        self._behaviour = Behaviour(plan.policy, plan.mistake)
        self.trace = Trace()

    def do(self, templates: Path) -> tuple[Verdict, str]:
        """Does the run, and returns its verdict before the history is judged, and the reason: a run that can
        be judged is undecided."""
        plan, load = self._plan, self._drawn()
        cluster = Cluster(plan.database, plan.setting, self._folder, templates)
        try:
            with ExitStack() as stack:
                stack.callback(cluster.keep_logs, self._folder, "run")
                stack.callback(cluster.stop)
                with time_limit(MOST_SECONDS + plan.seconds):
                    self._start(cluster, load)
                    self._work(cluster, load)
                    self._read(cluster, load)
            return Verdict.UNDECIDED, self.trace.ended_early
        except Damaged as damaged:
            return Verdict.DAMAGED, str(damaged)
        except CutShort as cut_short:
            return Verdict.CUT_SHORT, str(cut_short)
        except Exception as error:  # of a client library or of the system: the run says nothing
            self.trace.notes.insert(0, "".join(traceback.format_exception(error)[-MOST_FRAMES:]))
            return Verdict.CUT_SHORT, f"the harness failed: {error!r}"

    def _drawn(self) -> Load:
        """Returns the tasks of the run."""
        plan, tasks = self._plan, TASKS * ceil(self._plan.seconds + 1)
        if plan.workload is Workload.KEYS:
            return draw_keys(plan.clients, tasks, plan.reads, plan.seed)
        return draw(self._programs.vacation, {"clients": plan.clients, "tasks": tasks, "user": TRIPS,
                                              "reads": plan.reads, "seed": plan.seed}, ITEMS)

    def _start(self, cluster: Cluster, load: Load) -> None:
        """Starts the database, and runs the setup phase."""
        self._progress.say("starting the database")
        try:
            cluster.start(self._fault.needs if self._fault else Needs())
            _retry(lambda: make_tables(self._plan.database, self._plan.setting, cluster.addresses()))
        except Damaged as damaged:
            raise CutShort(f"the database does not start: {damaged}") from damaged
        done = self._run_here(cluster, load.setup, Seat(0))
        if done < len(load.setup):
            raise CutShort(f"only {done} of {len(load.setup)} calls of the setup phase were completed")
        if cluster.disk:
            cluster.disk.sync()

    def _work(self, cluster: Cluster, load: Load) -> None:
        """Lets the clients work while faults are injected, and records their calls."""
        crew = Crew(Target(self._plan.database, self._plan.setting, cluster.addresses()), self._behaviour,
                    load.clients)
        try:
            crew.start()
            crew.begin(self._plan.seconds + MOST_LONGER)
            self._inject_all(cluster, crew)
            self._progress.say("waiting for the last calls")
            crew.finish()
        finally:
            crew.end()
            for recorder in crew.recorders.values():
                self.trace.add(recorder)
        if self.trace.counts["damaged"]:
            raise Damaged(next(note for note in self.trace.notes if note.startswith("damaged")))
        if not self.trace.counts["completed"]:
            raise CutShort("no call was completed")
        if self._fault and not self.trace.injected:
            reasons = [fault.get("no effect", "") for fault in self.trace.faults]
            raise CutShort(f"no fault had an effect: {reasons[0]}" if reasons else "no fault was injected")

    def _inject_all(self, cluster: Cluster, crew: Crew) -> None:
        """Injects faults while the clients work. Each fault waits for a call that was completed since the last
        one. A workload in which no fault had an effect yet, or a client completed no call after it, goes on beyond
        its planned end: on a busy machine clients may need seconds to start."""
        scene = Scene(cluster, crew, Random(f"choices {self._plan.seed}"), self._plan.lag, lambda text: None)
        limit = time.monotonic() + self._plan.seconds
        latest, completed, calls = limit + MOST_LONGER, 0, crew.calls()
        for gap in gaps(self._fault, self._plan.seed, self._plan.seconds) if self._fault else ():
            until = time.monotonic() + gap
            self._watch(crew, lambda: time.monotonic() < (min(until, limit) if self._has_enough_faults() else until))
            self._watch(crew, lambda: crew.completed() <= completed and time.monotonic() < latest)
            is_late = time.monotonic() >= (limit if self._has_enough_faults() else latest)
            if is_late or not crew.is_working() or self._must_end(crew):
                break
            self._inject(scene)
            completed, calls = crew.completed(), crew.calls()
        self._watch(crew, lambda: time.monotonic() < limit)
        if self.trace.injected or not self._fault:
            self._watch(crew, lambda: time.monotonic() < latest and any(
                count <= calls.get(client, -1) for client, count in crew.calls().items()))

    def _has_enough_faults(self) -> bool:
        """Returns whether the workload may end: a fault had an effect, or none will."""
        return self.trace.injected > 0 or len(self.trace.faults) >= MOST_IDLE

    def _watch(self, crew: Crew, goes_on: Callable[[], bool]) -> None:
        """Waits while the clients work and a condition holds."""
        while goes_on() and crew.is_working() and not self._must_end(crew):
            self._progress.say(f"{crew.completed()} calls, {self.trace.injected} faults")
            time.sleep(0.02)

    def _must_end(self, crew: Crew) -> bool:
        """Returns whether the run has to end early, since a history has enough pending calls."""
        if self._plan.policy is Policy.LEAVE and crew.has_enough_pending():
            self.trace.ended_early = f"ended early; pending calls: {crew.counts()['pending']}"
        return bool(self.trace.ended_early)

    def _inject(self, scene: Scene) -> None:
        notes: list[str] = []
        entry = {"begin": time.monotonic_ns(), "notes": notes}
        scene.log = lambda text: notes.append(f"{time.monotonic_ns()} {text}")
        self._progress.say(f"fault {self._plan.fault}")
        try:
            entry["effect"] = self._fault.inject(scene)
        except NoEffect as no_effect:
            entry["no effect"] = str(no_effect)
        finally:
            entry["end"] = time.monotonic_ns()
            self.trace.faults.append(entry)

    def _read(self, cluster: Cluster, load: Load) -> None:
        """Looks up the tokens of pending calls, and reads the final state."""
        self._progress.say("reading the final state")
        cluster.await_settled()
        target = Target(self._plan.database, self._plan.setting, cluster.addresses())
        if self._plan.policy is Policy.ASK:
            limit = time.monotonic() + FINAL_PATIENCE
            self.trace.calls = [found for call in self.trace.calls
                                if (found := self._resolved(target, call, limit)) is not None]
        done = self._run_here(cluster, load.reads, Seat(FINAL))
        if done < len(load.reads):
            raise CutShort(f"only {done} of {len(load.reads)} final reads were completed")

    def _resolved(self, target: Target, call: Call, limit: float) -> Call | None:
        """Returns a call with the reply that its token has, or none if it took no effect. Asks until a reading
        of the clock."""
        if call.end is not None:
            return call

        def ask() -> str | None:
            session = target.connect(0)
            try:
                return session.outcome(call.token)
            finally:
                session.close()

        self._progress.say(f"{self.trace.counts['pending']} tokens to look up")
        reply = _retry(ask, limit)
        self.trace.counts["pending"] -= 1
        self.trace.counts["took effect" if reply else "had no effect"] += 1
        return reply and Call(call.client, call.begin, time.monotonic_ns(), call.line, reply)

    def _run_here(self, cluster: Cluster, lines: list[str], seat: Seat) -> int:
        """Runs tasks in this process up to the first that cannot be completed, and returns how many were."""
        target = Target(self._plan.database, self._plan.setting, cluster.addresses())
        recorder = Recorder(seat, Policy.LEAVE)
        limit = time.monotonic() + FINAL_PATIENCE

        def has_time() -> bool:
            is_whole = recorder.counts["completed"] == recorder.seat.position
            self._progress.say(f"{recorder.counts['completed']} of {len(lines)} calls")
            return is_whole and time.monotonic() < limit

        Client(Behaviour(Policy.LEAVE, patience=FINAL_PATIENCE / 2), seat, lambda: target.connect(0),
               recorder.take).run(lines, has_time)
        self.trace.calls += recorder.calls
        self.trace.notes += recorder.notes
        if recorder.counts["damaged"]:
            raise Damaged(next(note for note in recorder.notes if note.startswith("damaged")))
        return recorder.counts["completed"]


def _retry(ask: Callable[[], object], limit: float | None = None):
    """Returns what a query returns, which is tried again while the database refuses it or is not reached."""
    limit = time.monotonic() + FINAL_PATIENCE if limit is None else limit
    while True:
        try:
            return ask()
        except (Lost, Refused) as error:
            if time.monotonic() > limit:
                raise CutShort(f"the database does not answer: {error}") from error
            time.sleep(0.05)


def _record(plan: Plan, trace: Trace) -> dict:
    """Returns what the record of a run says beside its verdict."""
    return {
        "database": plan.name, "workload": plan.workload.value, "version": plan.database.version(),
        "fault": plan.fault,
        "policy": plan.policy.value, "mistake": plan.mistake.value if plan.mistake else None,
        "seed": plan.seed, "seconds": plan.seconds, "clients": plan.clients, "lag": plan.lag,
        "reads": plan.reads,
        "nodes": plan.setting.nodes, "arguments": dict(plan.setting.arguments),
        "session": list(plan.setting.session), "environment": dict(plan.setting.environment),
        "promise": plan.promise.strength.value, "source": plan.promise.source,
        "system": platform.platform(), "python": platform.python_version(),
        "clock": {"name": "CLOCK_MONOTONIC", "unit": "nanosecond",
                  "resolution in seconds": time.get_clock_info("monotonic").resolution},
        "faults": trace.faults, "counts": dict.fromkeys(COUNTED, 0) | trace.counts,
        "notes": trace.notes[:MOST_NOTES],
    }


def run(plan: Plan, programs: Programs, folder: Path, progress: Progress) -> Result:
    """Does a run in a new folder, has its history judged, and leaves the history and a record there."""
    folder.mkdir()
    one = Run(plan, programs, folder, progress)
    verdict, reason = one.do(folder.parent / "templates")
    history = folder / "run.calls"
    history.write_text("".join(f"{call}\n" for call in one.trace.calls), encoding="ascii")
    record = _record(plan, one.trace)
    if verdict is Verdict.UNDECIDED:
        try:
            judgement = judge(programs.judge(plan.workload), history, progress.say)
            verdict = judgement.verdict
            record |= {"judge": judgement.lines, "judge seconds": round(judgement.seconds, 3)}
            if verdict is Verdict.ILLEGAL:
                reason = "; ".join([*judgement.lines[:2], *filter(None, [reason])])
        except CutShort as cut_short:
            verdict, reason = Verdict.CUT_SHORT, str(cut_short)
    record |= {"verdict": verdict.value, "reason": reason}
    (folder / "run.json").write_text(json.dumps(record, indent=1) + "\n", encoding="utf-8")
    return Result(plan, verdict, reason, record, history)
