"""Sessions that do as they are told, and tables whose commits lose their replies, for tests of the clients of
benchmark/databases without a server."""

import sqlite3
import sys
import time
from pathlib import Path

ROOT = Path(__file__).resolve().parent.parent
sys.dont_write_bytecode = True
sys.path.insert(0, str(ROOT / "benchmark" / "databases"))
from harness.clients import Behaviour, Client
from harness.keyvalue import Store
from harness.outcomes import Lost, Refused, Unknown
from harness.records import Mistake, Policy, Recorder, Seat
from harness.sessions import Session, SqlSession, StoreSession
from harness.sql import TABLES, Connection


class Scripted(Session):
    """A session whose calls end as a list says: by an exception, or a reply."""

    def __init__(self, ends):
        self._ends = iter(ends)
        self.tokens = []

    def call(self, line, token):
        self.tokens.append(token)
        self.before_commit()
        end = next(self._ends)
        if isinstance(end, Exception):
            raise end
        return end

    def outcome(self, token):
        return None

    def close(self):
        pass


class Tables(Connection):
    """Tables in memory, whose commits fail as a list says: none commits and replies; `Unknown` commits, and the
    reply is lost; any other exception rolls back."""

    def __init__(self, ends=()):
        self.tables = sqlite3.connect(":memory:", isolation_level=None)
        self._ends = iter(ends)
        for statement in TABLES:
            self.tables.execute(statement)

    def run(self, statement, values):
        cursor = self.tables.execute(statement, values)
        return cursor.fetchall(), cursor.rowcount

    def begin(self):
        if self.tables.in_transaction:
            self.run("ROLLBACK", {})
        self.run("BEGIN", {})

    def commit(self):
        end = next(self._ends, None)
        if end is None or isinstance(end, Unknown):
            self.run("COMMIT", {})
        if end is not None:
            raise end

    def close(self):
        pass


class Memory(Store):
    """A store in memory. If it is told to, it loses the reply of each commit."""

    def __init__(self, loses_replies=False):
        self.data = {}
        self.loses_replies = loses_replies

    def get(self, key):
        return self.data.get(key)

    def scan(self):
        return {key: value for key, value in self.data.items() if key[:2] in ("i/", "c/")}

    def commit(self, changes):
        for key, value in changes.items():
            if value is None:
                self.data.pop(key, None)
            else:
                self.data[key] = value
        if self.loses_replies:
            raise Unknown()

    def close(self):
        pass


def record(session, lines, policy=Policy.ASK, tries=3, mistake=None):
    """Returns the recorder of a client that ran some lines over a session."""
    recorder = Recorder(Seat(7), policy, mistake)
    behaviour = Behaviour(policy, mistake, tries=tries, patience=5)
    Client(behaviour, recorder.seat, lambda: session, recorder.take).run(lines)
    return recorder


def texts(recorder):
    """Returns the calls of a recorder without their times."""
    found = [str(call).split(" ") for call in recorder.calls]
    return [" ".join([words[0], *(["-"] if words[2] == "-" else []), *words[3:]]) for words in found]


def want(holds, what):
    """Ends the test unless a condition holds."""
    if not holds:
        raise AssertionError(what)


LINES = ["newcust 1", "newcust 2"]
# A policy, how the tries end, the calls that the history has, and some counts.
POLICIES = [
    (Policy.ASK, ["true", "true"], ["7 newcust 1 -> true", "7 newcust 2 -> true"], {"completed": 2}),
    (Policy.ASK, [Refused(), "true", Lost(), Lost(), "false exists"],
     ["7 newcust 1 -> true", "7 newcust 2 -> false exists"], {"refused": 1, "lost": 2}),
    (Policy.LEAVE, [Unknown(), "true"], ["7 - newcust 1 -> ?", "1007 newcust 2 -> true"], {"pending": 1}),
    (Policy.LEAVE, [Unknown("", "true"), "true"], ["7 - newcust 1 -> true", "1007 newcust 2 -> true"], {"pending": 1}),
    (Policy.ASK, [Unknown(), Unknown()], ["7 - newcust 1 -> ?", "1007 - newcust 2 -> ?"], {"pending": 2}),
    (Policy.TOKEN, [Unknown(), "true", "true"], ["7 newcust 1 -> true", "7 newcust 2 -> true"], {"unknown": 1}),
    (Policy.AGAIN, [Unknown(), "false exists", "true"],
     ["7 newcust 1 -> false exists", "7 newcust 2 -> true"], {"unknown": 1}),
    (Policy.AGAIN, [Unknown("", "true"), Refused(), Refused(), Refused(), "true"],
     ["7 - newcust 1 -> ?", "1007 newcust 2 -> true"], {"pending": 1, "refused": 3}),
    (Policy.ASK, [Refused(), Refused(), Refused(), "true"], ["7 newcust 2 -> true"], {"given up": 1}),
]


def holds_policies():
    """How a call is recorded follows from its tries and the policy."""
    for policy, ends, calls, counts in POLICIES:
        session = Scripted(ends)
        recorder = record(session, LINES, policy)
        want(texts(recorder) == calls, f"{policy}, {ends}: {texts(recorder)}")
        want({name: recorder.counts[name] for name in counts} == counts, f"{policy}, {ends}: {recorder.counts}")
        want(all((token is not None) == policy.has_tokens for token in session.tokens), f"{policy}: tokens")
    recorder = record(Scripted([Lost(), "0"]), ["bill 1"])
    want(texts(recorder) == ["7 bill 1 -> 0"], "a read whose connection was lost is tried again")


def holds_tokens():
    """A retry under a token does a task once, a blind retry twice."""
    for policy, replies in ((Policy.TOKEN, ["7 newcust 1 -> true"]), (Policy.AGAIN, ["7 newcust 1 -> false exists"])):
        recorder = record(SqlSession(Tables([Unknown()])), ["newcust 1"], policy)
        want(texts(recorder) == replies, f"{policy}: {texts(recorder)}")
    tables = Tables([Unknown(), Lost()])
    session = SqlSession(tables)
    recorder = record(session, ["newcust 1", "newcust 2"], Policy.ASK)
    outcomes = [session.outcome(call.token) for call in recorder.calls]
    want(outcomes == ["true", None], f"looked up: {outcomes}")
    undetermined = ["7 - newcust 1 -> true", "1007 - newcust 2 -> true"]
    want(texts(recorder) == undetermined, f"without a confirmed commit: {texts(recorder)}")
    recorder = record(StoreSession(Memory(loses_replies=True)), ["newcust 1", "newcust 2", "bill 1"], Policy.LEAVE)
    want(texts(recorder)[:2] == undetermined, f"without a confirmed commit of a store: {texts(recorder)}")
    want(session.outcome(recorder.calls[1].token) is None, "a token that was looked up is stored")


def holds_times():
    """BEGIN is read before the first try, END after the reply; the mistake takes END before the commit."""
    for mistake in (None, Mistake.EARLY_END):
        session = Scripted([Refused(), "true"])
        done = []
        call = session.call

        def slow(line, token):
            try:
                return call(line, token)
            finally:
                time.sleep(0.002)
                done.append(time.monotonic_ns())

        session.call = slow
        before = time.monotonic_ns()
        found = record(session, ["newcust 1"], mistake=mistake).calls[0]
        want(before <= found.begin <= done[0] - 2_000_000, f"BEGIN after the first try: {found}")
        want((found.end >= done[1]) == (mistake is None), f"END with {mistake}: {found}")


def killed(policy, is_committing, line="newcust 1", mistake=None):
    """Returns the recorder of a client that was killed in a call."""
    recorder = Recorder(Seat(7), policy, mistake)

    def send(message):
        recorder.take(message)
        if type(message).__name__ == ("Committing" if is_committing else "Began"):
            raise KeyboardInterrupt

    try:
        Client(Behaviour(policy), recorder.seat, lambda: Scripted(["true"]), send).run([line])
    except KeyboardInterrupt:
        recorder.killed()
    return recorder


def holds_kills():
    """A client that was killed in its commit has a pending call, or a successor that tries again."""
    for policy in Policy:
        early, late = killed(policy, False), killed(policy, True)
        want(not early.calls and early.seat.begin and not early.seat.is_unknown, f"{policy}: killed before")
        if policy.retries:
            want(not late.calls and late.seat.is_unknown, f"{policy}: a successor tries again")
        else:
            want(texts(late) == ["7 - newcust 1 -> ?"] and late.seat.client == 1007, f"{policy}: killed in the commit")
    want(not killed(Policy.ASK, True, "bill 1").calls, "a read that was killed is pending")
    want(not killed(Policy.LEAVE, True, mistake=Mistake.FORGET).calls, "the mistake forgets pending calls")
    want(killed(Policy.LEAVE, True, mistake=Mistake.SAME_CLIENT).seat.client == 7, "the mistake keeps the client")
