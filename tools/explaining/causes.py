"""What would make a wrong answer right: one call before it that was lost, took effect twice or too early, or booked
in another state than it had read. The likeliest cause is the one that keeps later answers right the longest."""

from __future__ import annotations

import time
from collections.abc import Iterator
from dataclasses import dataclass, replace
from enum import Enum

from .history import History
from .reduction import Contradiction, Part
from .search import Search, TooManyPositions
from .tasks import NEVER, Call, Item, Task, TripReply, item_text, read_trip, is_read_only

# Number of calls before the wrong answer that may be its cause, and of calls after it that tell causes apart.
WINDOW, BEYOND = 40, 120
MOST_POSITIONS, MOST_SECONDS = 2_000, 2.5


class Fault(Enum):
    """A way to go wrong."""
    LOST = "lost"
    TWICE = "twice"
    EARLY = "early"
    TORN = "torn"


@dataclass
class Cause:
    """A call that went wrong. `what` names its effect that did; `reach` is the time of the next answer that is
    wrong even so; a call is `raced` if another one changed one of the same entries while it ran."""
    fault: Fault
    call: Call
    what: str
    reach: int = NEVER
    raced: bool = False


def rivals(call: Call, calls: list[Call]) -> list[Call]:
    """The calls that may have changed an entry that the call changed, at the same time."""
    def entries(one: Call) -> set:
        return set(one.task.items()) | ({one.task.customer} - {None})

    return [other for other in calls if other.number != call.number and other.overlaps(call)
            and not is_read_only(other) and not entries(call).isdisjoint(entries(other))]


def causes_of(history: History, found: Contradiction) -> list[Cause]:
    """The causes of a contradiction, the likeliest first."""
    part, wrong = found.part, found.wrong
    recent = sorted((call for call in part.calls if not is_read_only(call)), key=lambda call: call.begin)[-WINDOW:]
    window = part.since(min([call.begin for call in recent] + [wrong.begin]))
    ends = sorted(call.end for call in history.naming(found.customers, found.items)
                  if call.is_complete and call.begin > wrong.end)[:BEYOND]
    later = history.part(found.customers, found.items, ends[-1] if ends else wrong.end)
    gone = {call.number for call in part.calls} - {call.number for call in window.calls}
    calls = [call for call in later.calls if call.number not in gone]
    numbers = {call.number for call in recent} | {wrong.number}
    until, causes = time.monotonic() + MOST_SECONDS, []
    for cause, repaired in _repairs(calls, wrong):
        if time.monotonic() > until:
            break
        if cause.call.number in numbers and _reach(cause, repaired, window, wrong):
            cause.raced = bool(rivals(cause.call, window.calls))
            causes.append(cause)
    return sorted(causes, key=lambda cause: (-cause.reach, not cause.raced, -cause.call.end))


def _reach(cause: Cause, repaired: list[Call], window: Part, wrong: Call) -> bool:
    """Finds how far the repaired calls are right; returns whether the wrong answer is right then."""
    try:
        search = Search(repaired, window.openings, most=MOST_POSITIONS)
    except TooManyPositions:
        return False
    if search.first_wrong is not None:
        bad = search.calls[search.first_wrong]
        if bad.end <= wrong.end or bad.number == wrong.number:
            return False
        cause.reach = bad.end
    return True


def faults_of(few: Part, wrong: Call) -> list[Cause]:
    """Each fault of a single call under which the few calls are right."""
    found = []
    for cause, repaired in _repairs(few.calls, wrong):
        try:
            if Search(repaired, few.openings, few.blocks, most=MOST_POSITIONS).first_wrong is None:
                found.append(cause)
        except TooManyPositions:
            continue
    return found


def _repairs(calls: list[Call], wrong: Call) -> Iterator[tuple[Cause, list[Call]]]:
    """The calls with one of them changed, the latest first."""
    order = sorted(range(len(calls)), key=lambda place: -calls[place].begin)
    for place in order:
        call = calls[place]
        if call.reply is None or call.begin > wrong.end or is_read_only(call) and call.number != wrong.number:
            continue
        def changed(*instead: Call, at: int = place) -> list[Call]:
            return [*calls[:at], *instead, *calls[at + 1:]]

        yield Cause(Fault.EARLY, call, "ran"), changed(replace(call, begin=0, client=-1))
        if call.number == wrong.number:
            continue
        yield Cause(Fault.LOST, call, f"what {call.number} wrote"), changed()
        parts = read_trip(call.reply) if call.task.name == "trip" else None
        if parts is not None:
            for cause, other in _trip_repairs(call, parts):
                yield cause, changed(other)
        # A second effect of an undetermined call may be its only one.
        if call.is_complete and call.task.name in ("trip", "reserve", "add", "del", "update"):
            again = replace(call, task=_booking_again(call, parts), reply=None, end=NEVER, client=-2)
            yield Cause(Fault.TWICE, call, "took effect twice"), [*calls, again]


def _booking_again(call: Call, parts: TripReply | None) -> Task:
    booked = tuple(parts.booked()) if parts else ()
    return replace(call.task, asks=booked) if booked else call.task


def _trip_repairs(call: Call, parts: TripReply) -> Iterator[tuple[Cause, Call]]:
    """Trips that lost bookings, or booked without a choice."""
    newcomer = replace(call, task=Task("newcust", call.task.customer),
                       reply="true" if parts.customer == "true" else "false exists")
    booked = parts.booked()
    if booked and parts.customer == "true":
        yield Cause(Fault.LOST, call, f"all that {call.number} booked"), newcomer
    for item in booked if len(booked) > 1 else []:
        yield Cause(Fault.LOST, call, f"{call.number}'s booking of {item_text(item)}"), _without(call, parts, item)
    picked = {item for item, _ in parts.picks.values()}
    bare = tuple(ask for ask in call.task.asks if ask in picked)
    if bare and bare != call.task.asks:
        yield Cause(Fault.TORN, call, "chose"), replace(call, task=replace(call.task, asks=bare))


def _without(call: Call, parts: TripReply, item: Item) -> Call:
    """A trip that did not book one of its picks."""
    asks = tuple(ask for ask in call.task.asks if ask[0] != item[0])
    return replace(call, task=replace(call.task, asks=asks), reply=parts.only({ask[0] for ask in asks}).text())
