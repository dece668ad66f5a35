"""From a history to the few calls that contradict each other.

Steps that keep a wrong answer wrong: the part on a scope (parts.py); cutting off what comes after the wrong answer;
putting the state that it leaves in the place of what comes before; leaving out items, calls that change nothing,
and words of replies."""

from __future__ import annotations

from collections.abc import Callable, Iterable
from dataclasses import dataclass, replace

from .model import Row, State, is_item
from .parts import MOST_ID, Bookings, Scope, project, updated
from .search import Search, first_wrong
from .tasks import KINDS, Call, Item, Task, TripReply, is_probe, is_read_only, read_trip, read_update

# Ids above this may be stand-ins (parts.py).
LEAST_STAND_IN = MOST_ID - 1000


def rank(row: Row) -> tuple:
    """The rank of a row by how much it tells a reader: a customer, a booking, an item, a stand-in."""
    return is_stand_in(row), {"customer": 0, "bookings": 1, "booking": 1}.get(row[0], 2), str(row)


def is_stand_in(row: Row) -> bool:
    return row[0] not in ("customer", "bookings") and row[-1] >= LEAST_STAND_IN


@dataclass
class Part:
    """A part of a history: the states of which one is that at its beginning, and calls. With a number of blocks it
    is the whole history, and replies `full` count."""
    openings: list[State]
    calls: list[Call]
    blocks: int | None = None

    def wrong(self) -> Call | None:
        return first_wrong(self.calls, self.openings, self.blocks)

    def is_wrong(self) -> bool:
        return self.wrong() is not None

    def with_calls(self, calls: Iterable[Call]) -> Part:
        return replace(self, calls=list(calls))

    def narrow(self, customers: Iterable[int], items: Iterable[Item]) -> Part:
        """The part of the part on a smaller scope."""
        scope = Scope(frozenset(customers), frozenset(items), Bookings(self.calls, self.openings))
        openings: list[State] = []
        for opening in map(scope.state, self.openings):
            if opening not in openings:
                openings.append(opening)
        return replace(self, openings=openings, calls=project(self.calls, scope))

    def since(self, time: int) -> Part:
        """The part from the last moment before a time at which few states are possible, and the same running calls
        have taken effect in all of them."""
        search = Search(self.calls, self.openings, self.blocks, narrow_before=time)
        if search.narrow is None:
            return self
        placed = next(placed for placed, _ in search.narrow.positions)
        gone = set(search.begin_order[:search.narrow.begun]) - set(search.narrow.running) | placed
        states = sorted(state for _, state in search.narrow.positions)
        return Part([search.states.states[state] for state in states],
                    [call for place, call in enumerate(self.calls) if place not in gone], self.blocks)

    def items(self) -> list[Item]:
        """All items of the part, without stand-ins."""
        found = {row for opening in self.openings for row in opening if is_item(row)}
        found |= {item for call in self.calls for item in call.task.items()}
        return sorted(item for item in found if item[1] < LEAST_STAND_IN)


@dataclass
class Contradiction:
    """A wrong answer that the part of the history on a scope shows: `call` as in the log, `part` up to its
    return."""
    customers: frozenset[int]
    items: frozenset[Item]
    call: Call
    part: Part

    @property
    def wrong(self) -> Call:
        """The part of the call with the wrong answer."""
        return next(call for call in self.part.calls if call.number == self.call.number and call.is_complete)

    def near(self) -> list[Call]:
        """The calls of the part that overlap the wrong one, and itself."""
        wrong = self.wrong
        return [call for call in self.part.calls if call.overlaps(wrong)]


def minimized(names: list, is_wrong: Callable[[list], bool]) -> list:
    """Those of the names without which the rest is not wrong any more, found by leaving out halves, quarters and
    so on (delta debugging)."""
    if names and is_wrong([]):
        return []
    kept, size = list(names), max(1, len(names) // 2)
    while kept:
        at, before = 0, len(kept)
        while at < len(kept):
            trial = kept[:at] + kept[at + size:]
            if is_wrong(trial):
                kept = trial
            else:
                at += size
        if size == 1 and len(kept) == before:
            break
        size = max(1, size // 2)
    return kept


def few_calls(found: Contradiction, needed: list[Call]) -> Part:
    """The calls from before the needed ones on, with as few items and words as show the wrong answer."""
    short = found.part.since(min(call.begin for call in needed))
    if found.part.blocks is None:
        items = minimized(short.items(), lambda trial: short.narrow(found.customers, trial).is_wrong())
        short = short.narrow(found.customers, items)
    return _slim(short)


def _slim(part: Part) -> Part:
    """The part without calls that are not needed and words of replies that say more than is needed."""
    idle = [place for place, call in enumerate(part.calls) if is_read_only(call)]
    fixed = set(range(len(part.calls))) - set(idle)

    def with_only(kept: Iterable[int]) -> Part:
        places = set(kept) | fixed
        return part.with_calls(call for place, call in enumerate(part.calls) if place in places)

    part = with_only(minimized(idle, lambda kept: with_only(kept).is_wrong()))
    changed = True
    while changed:
        changed = False
        for place, call in enumerate(part.calls):
            for weaker in _weaker(call):
                trial = part.with_calls([*part.calls[:place], weaker, *part.calls[place + 1:]])
                if trial.is_wrong():
                    part, changed = trial, True
                    break
    return part


def _weaker(call: Call) -> list[Call]:
    """Calls with the same effect that say less."""
    if call.reply is None:
        return []
    if call.task.name == "leave" and call.reply != "-1":
        return [replace(call, task=Task("dropcust", call.task.customer), reply="true")]
    if call.task.name == "trip":
        parts = read_trip(call.reply)
        return [] if parts is None or parts.customer == "full" else _weaker_trips(call, parts)
    if call.task.name == "update":
        return _weaker_updates(call)
    return []


def _weaker_trips(call: Call, parts: TripReply) -> list[Call]:
    task, found = call.task, []
    if not parts.picks:
        return [replace(call, task=replace(task, asks=(ask,))) for ask in dict.fromkeys(task.asks)
                if len(task.asks) > 1]
    idle = [kind for kind in KINDS if parts.picks.get(kind, (None, ""))[1] != "true"]
    for kinds in (idle, *[[kind] for kind in idle]):
        asks = tuple(ask for ask in task.asks if ask[0] not in kinds)
        fewer = parts.only(set(KINDS) - set(kinds))
        if asks != task.asks and fewer.picks:
            found.append(replace(call, task=replace(task, asks=asks), reply=fewer.text()))
        elif not fewer.picks:
            found.append(replace(call, task=Task("newcust", task.customer),
                                 reply="true" if parts.customer == "true" else "false exists"))
    picked = {item for item, _ in parts.picks.values()}
    bare = tuple(dict.fromkeys(ask for ask in task.asks if ask in picked or ask[0] not in parts.picks))
    if bare != task.asks:
        found.append(replace(call, task=replace(task, asks=bare)))
    return found


def _weaker_updates(call: Call) -> list[Call]:
    words, found = read_update(call.task, call.reply), []
    for place, (change, word) in enumerate(zip(call.task.changes, words or [])):
        if word != "true" or is_probe(change):
            answer = updated([other for at, other in enumerate(call.task.changes) if at != place],
                             [other for at, other in enumerate(words) if at != place])
            if answer is not None:
                found.append(replace(call, task=answer[0], reply=answer[1]))
    return found
