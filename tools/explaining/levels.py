"""Isolation levels: whether a few calls are allowed by a level, and a schedule that shows it.

The first three levels are orders of whole calls, which the program confirms. The others are searches of the script
over the statements of model.py: under *snapshot isolation* a call reads the rows of one moment and writes its own
at a later one, and no other call has written one of these rows in between; under *read committed* each statement
sees the newest committed rows, and a row that a running call has written waits; with *single statements* each
statement takes effect at once. Each level allows what the levels before it allow."""

from __future__ import annotations

import time
from dataclasses import dataclass, replace

from .model import Row, Rules, State, Statement, View, applied, transaction
from .reduction import Part, rank
from .search import Search, TooManyPositions
from .tasks import NEVER, Call, Task

LINEARIZABLE, SEQUENTIAL, SERIALIZABLE = "linearizable", "sequentially consistent", "serializable"
SNAPSHOT, COMMITTED, STATEMENTS = "snapshot isolation", "read committed", "single statements"
LEVELS = (LINEARIZABLE, SEQUENTIAL, SERIALIZABLE, SNAPSHOT, COMMITTED, STATEMENTS)
# Orders of the calls that a schedule keeps, the strictest first.
IN_TIME, BY_CLIENT, FREE = "in time", "by client", "free"
# Bounds of a search for schedules.
MOST_CALLS, MOST_STEPS, MOST_SECONDS = 14, 100_000, 0.7


@dataclass(frozen=True)
class Step:
    """A step of a schedule: a call that reads rows, or writes them. `verbs` tells what the step does to each row
    that it writes as far as others see it: makes, changes, removes."""
    call: Call
    reads: tuple[Row, ...] = ()
    verbs: tuple[tuple[Row, str], ...] = ()
    is_commit: bool = False

    @property
    def written(self) -> tuple[Row, ...]:
        return tuple(row for row, _ in self.verbs)


def _verbs(writes: dict[Row, tuple | None], rows: State) -> tuple[tuple[Row, str], ...]:
    return tuple((row, "removes" if value is None else "changes" if row in rows else "makes")
                 for row, value in writes.items())


def timeless(calls: list[Call], keeps_clients: bool) -> list[Call]:
    """The calls as if all had run at the same time, in the order of each client or without any order."""
    return [replace(call, begin=1, end=1 if call.is_complete else NEVER,
                    client=call.client if keeps_clients else place + 1)
            for place, call in enumerate(sorted(calls, key=lambda call: (call.begin, call.number)))]


def is_allowed_without_times(part: Part, keeps_clients: bool) -> bool | None:
    """Returns whether some order of the calls without their times is legal; none if this is not known."""
    try:
        return Search(timeless(part.calls, keeps_clients), part.openings, part.blocks).first_wrong is None
    except TooManyPositions:
        return None


class OutOfSteps(Exception):
    """The search ran into its bounds."""


class Schedules:
    """Searches for a schedule of calls from a state under a level."""

    def __init__(self, part: Part, state: State, order: str):
        self.calls = sorted(part.calls, key=lambda call: (call.begin, call.number))
        self.state, self.blocks = state, part.blocks
        self._before = [[place for place, other in enumerate(self.calls) if self._precedes(other, call, order)]
                        for call in self.calls]
        self._steps, self._until = 0, time.monotonic() + MOST_SECONDS
        self._dead: set = set()

    @staticmethod
    def _precedes(other: Call, call: Call, order: str) -> bool:
        if other is call or order == FREE:
            return False
        if order == IN_TIME and other.precedes(call):
            return True
        return other.client == call.client and (other.begin, other.number) < (call.begin, call.number)

    def _may_begin(self, place: int, is_done: list[bool]) -> bool:
        return all(is_done[other] for other in self._before[place])

    def _tick(self) -> None:
        self._steps += 1
        if self._steps > MOST_STEPS or time.monotonic() > self._until:
            raise OutOfSteps

    # ---- snapshot isolation

    def snapshots(self) -> list[Step] | None:
        return self._snapshot([None] * len(self.calls), self.state, [])

    def _snapshot(self, status: list, rows: State, path: list[Step]) -> list[Step] | None:
        """Extends a schedule. The status of a call is none before its snapshot, then its writes, and true once it
        has committed; it is false if a conflict keeps it from committing."""
        is_done = [one is True for one in status]
        if all(done for done, call in zip(is_done, self.calls) if call.is_complete):
            return path
        key = (tuple(frozenset(one.items()) if isinstance(one, dict) else one for one in status),
               frozenset(rows.items()))
        if key in self._dead:
            return None
        self._tick()
        for place, call in enumerate(self.calls):
            if status[place] is None and self._may_begin(place, is_done):
                found = self._take_snapshot(place, status, rows, path)
            elif isinstance(status[place], dict):
                found = self._commit_snapshot(place, status, rows, path)
            else:
                found = None
            if found is not None:
                return found
        self._dead.add(key)
        return None

    def _take_snapshot(self, place: int, status: list, rows: State, path: list[Step]) -> list[Step] | None:
        call = self.calls[place]
        reply, view = transaction(rows, call.task, self.blocks)
        if call.reply is not None and reply != call.reply:
            return None
        after = [*status[:place], view.writes or True, *status[place + 1:]]
        return self._snapshot(after, rows, [*path, Step(call, tuple(sorted(view.reads, key=rank)))])

    def _commit_snapshot(self, place: int, status: list, rows: State, path: list[Step]) -> list[Step] | None:
        writes = status[place]
        rivals = {other for other, one in enumerate(status)
                  if other != place and isinstance(one, dict) and not writes.keys().isdisjoint(one)}
        if any(self.calls[other].is_complete for other in rivals):
            return None
        after = [True if other == place else False if other in rivals else one for other, one in enumerate(status)]
        step = Step(self.calls[place], (), _verbs(writes, rows), True)
        return self._snapshot(after, applied(rows, writes), [*path, step])

    # ---- statements

    def statements(self, has_transactions: bool) -> list[Step] | None:
        """A schedule of statements. In transactions the writes of a call take effect when it ends."""
        self._has_transactions = has_transactions
        count = len(self.calls)
        return self._statement([()] * count, [False] * count, [{}] * count, self.state, [])

    def _statement(self, results: list, is_done: list, own: list, rows: State, path: list[Step]) -> list[Step] | None:
        if all(done for done, call in zip(is_done, self.calls) if call.is_complete):
            return path
        key = (tuple(map(_frozen, results)), tuple(is_done), tuple(frozenset(one.items()) for one in own),
               frozenset(rows.items()))
        if key in self._dead:
            return None
        self._tick()
        for place, call in enumerate(self.calls):
            if is_done[place] or results[place] == () and not self._may_begin(place, is_done):
                continue
            statement, reply = self._advance(call.task, results[place])
            if statement is not None:
                found = self._execute(place, statement, (results, is_done, own, rows, path))
            elif call.reply is None or reply == call.reply:
                found = self._end(place, (results, is_done, own, rows, path))
            else:
                found = None
            if found is not None:
                return found
        self._dead.add(key)
        return None

    def _execute(self, place: int, statement: Statement, at: tuple) -> list[Step] | None:
        results, is_done, own, rows, path = at
        view = View(rows, own[place])
        result = statement(view)
        if self._has_transactions and any(not view.writes.keys().isdisjoint(other)
                                          for at, other in enumerate(own) if at != place):
            return None
        results = [*results[:place], (*results[place], result), *results[place + 1:]]
        reads, verbs = tuple(sorted(view.reads, key=rank)), ()
        if self._has_transactions:
            own = [*own[:place], {**own[place], **view.writes}, *own[place + 1:]]
        else:
            verbs, rows = _verbs(view.writes, rows), applied(rows, view.writes)
        return self._statement(results, is_done, own, rows, [*path, Step(self.calls[place], reads, verbs)])

    def _end(self, place: int, at: tuple) -> list[Step] | None:
        results, is_done, own, rows, path = at
        step = Step(self.calls[place], (), _verbs(own[place], rows), True)
        return self._statement(results, [*is_done[:place], True, *is_done[place + 1:]],
                               [*own[:place], {}, *own[place + 1:]], applied(rows, own[place]), [*path, step])


    def _advance(self, task: Task, results: tuple) -> tuple[Statement | None, str | None]:
        """The statement of a task after the results of those before, or none and the reply."""
        steps = Rules(self.blocks).reply(task)
        try:
            statement = next(steps)
            for result in results:
                statement = steps.send(result)
            return statement, None
        except StopIteration as end:
            return None, end.value


def _frozen(results: tuple) -> tuple:
    return tuple(tuple(sorted(one.items())) if isinstance(one, dict) else one for one in results)


@dataclass
class Levels:
    """Which levels allow a few calls (none: not known), with a schedule for each of the weaker levels that does,
    and whether that schedule keeps the order in time."""
    allowed: dict[str, bool | None]
    schedules: dict[str, list[Step]]
    orders: dict[str, str]

    def strongest_allowing(self) -> str | None:
        return next((level for level in LEVELS if self.allowed[level]), None)

    def keeps_times(self) -> bool:
        """Returns whether the strongest level that allows the calls allows them at their times."""
        strongest = self.strongest_allowing()
        return strongest is None or self.orders.get(strongest) == IN_TIME

    def weakest_forbidding(self) -> str:
        """The level before the first that allows the calls, or that is not known."""
        found = LINEARIZABLE
        for level in LEVELS:
            if self.allowed[level] is not False:
                break
            found = level
        return found


def levels_of(part: Part) -> Levels:
    """The levels of the calls of a part. Schedules are looked for up to the first that keeps an order of the
    calls; if whole calls can be put in order, there is none."""
    found = Levels({level: None for level in LEVELS}, {}, {})
    found.allowed |= {LINEARIZABLE: False, SEQUENTIAL: is_allowed_without_times(part, True),
                      SERIALIZABLE: is_allowed_without_times(part, False)}
    if not found.allowed[SERIALIZABLE] and len(part.calls) <= MOST_CALLS:
        for level in (SNAPSHOT, COMMITTED, STATEMENTS):
            found.allowed[level] = _find_schedule(part, level, found)
            if found.orders.get(level, FREE) != FREE:
                break
    allows = False
    for level in LEVELS:
        allows = allows or bool(found.allowed[level])
        found.allowed[level] = True if allows else found.allowed[level]
    return found


def _find_schedule(part: Part, level: str, found: Levels) -> bool | None:
    """Looks for a schedule under a level that keeps the times, or else the order of each client, or none."""
    allowed: bool | None = False
    for order in (IN_TIME, BY_CLIENT, FREE):
        for opening in part.openings:
            schedules = Schedules(part, opening, order)
            try:
                schedule = schedules.snapshots() if level == SNAPSHOT else schedules.statements(level == COMMITTED)
            except (OutOfSteps, RecursionError):
                allowed = None
                continue
            if schedule is not None:
                found.schedules[level], found.orders[level] = schedule, order
                return True
    return allowed
