"""Finds the contradictions of a history, reduces and names them, and has the program confirm them."""

from __future__ import annotations

import time
from collections import Counter, defaultdict
from collections.abc import Iterable, Iterator
from dataclasses import dataclass, field, replace
from pathlib import Path
from typing import TypeAlias

from .causes import Cause, Fault, causes_of
from .history import History, Progress
from .levels import LINEARIZABLE, SEQUENTIAL, SERIALIZABLE, Levels, levels_of, timeless
from .names import UNKNOWN, DeadEnd, Kind, dead_ends, name
from .parts import Bookings, cut
from .program import Program, is_illegal, opening_tasks
from .reduction import Contradiction, Part, few_calls
from .search import Search, TooManyPositions
from .tasks import NEVER, Call, Item, is_read_only

# Contradictions that are explained, and seconds after which no further one is begun.
MOST_EXPLAINED, MOST_SECONDS = 12, 8
# More calls than a reader follows, and more choices of the state before and of undetermined calls.
MANY, MANY_CHOICES = 8, 4
# Contradictions that are looked for.
MOST_FOUND = 1_000
# A contradiction that only the whole history shows is looked for among so many calls.
MOST_WHOLE = 2_000
# Updates whose items are looked at together.
MOST_UPDATES = 400

# Customers, items, and the time up to which the history is looked at.
ScopeUntil: TypeAlias = tuple[frozenset[int], frozenset[Item], int]


@dataclass
class Finding:
    """A contradiction that is explained: its few calls, its levels and name, and the orders that fail. The program's
    verdicts on the part and on the few calls make it confirmed."""
    found: Contradiction
    few: Part
    levels: Levels
    causes: list[Cause]
    ends: list[DeadEnd]
    kind: Kind
    seconds: float
    # Calls of the part of the log that the program wrote and calls illegal; none if there is no such part.
    proved_calls: int | None = None
    part_verdicts: list[str] = field(default_factory=list)
    few_verdicts: list[str] = field(default_factory=list)
    # The levels whose answer the program has confirmed.
    sure: set[str] = field(default_factory=set)

    @property
    def numbers(self) -> list[int]:
        return sorted({call.number for call in self.few.calls})

    @property
    def calls(self) -> list[Call]:
        return sorted(self.few.calls, key=lambda call: (call.begin, call.number))

    @property
    def is_confirmed(self) -> bool:
        verdicts = self.part_verdicts + self.few_verdicts
        return bool(verdicts) and all(map(is_illegal, verdicts))

    @property
    def choices(self) -> int:
        """Number of cases for a reader: the states before the calls, and undetermined calls took effect or not."""
        return len(self.few.openings) << sum(call.is_undetermined for call in self.few.calls)

    def logs(self) -> list[list[str]]:
        """The few calls as histories, one for each state before them; times count from the first call."""
        zero = min(call.begin for call in self.calls) - 1
        shifted = [replace(call, begin=call.begin - zero, end=call.end - zero if call.is_complete else NEVER)
                   for call in self.calls]
        return [history_lines(opening, shifted) for opening in self.few.openings]


def history_lines(opening: dict, calls: Iterable[Call]) -> list[str]:
    """A history of an opening by client 0 at time 0 and calls."""
    return [f"0 0 0 {task} -> true" for task in opening_tasks(opening)] + [call.line() for call in calls]


# ---- contradictions

def contradictions(history: History, blocks: int, progress: Progress) -> list[Contradiction]:
    """The first wrong answer of each scope, each call once, the earliest first."""
    if not history.has_times():
        return _whole(history, blocks)
    if not history.is_whole:
        return _of_scopes(history, list(_scopes_of_verdict(history)), progress, 1)
    return (_of_scopes(history, list(_scopes(history)), progress)
            or _of_scopes(history, list(_wide_scopes(history)), progress) or _whole(history, blocks))


def _of_scopes(history: History, scopes: list[ScopeUntil], progress: Progress,
               most: int = MOST_FOUND) -> list[Contradiction]:
    found: dict[int, Contradiction] = {}
    for place, (customers, items, until) in enumerate(scopes, 1):
        progress.tell(lambda: f"parts: {place} of {len(scopes)}")
        part = history.part(customers, items, until)
        bad = part.wrong()
        if bad is not None and bad.number not in found:
            found[bad.number] = Contradiction(customers, items, history.by_number[bad.number], part)
        if len(found) >= most:
            break
    return sorted(found.values(), key=lambda one: one.call.end)


def _scopes(history: History) -> Iterator[ScopeUntil]:
    """Each customer alone, each item alone, each customer with what it books."""
    nobody: frozenset = frozenset()
    for customer in history.customers:
        yield frozenset({customer}), nobody, NEVER
    for item in history.items:
        yield nobody, frozenset({item}), NEVER
    for customer in history.customers:
        booked = frozenset(history.bookings.items[customer])
        if booked:
            yield frozenset({customer}), booked, NEVER


def _wide_scopes(history: History) -> Iterator[ScopeUntil]:
    """The items of each update, each customer with all items that its calls name, each item with all who may have
    booked it."""
    named: dict[int, set[Item]] = defaultdict(set)
    together: set[frozenset[Item]] = set()
    for call in history.calls:
        if call.task.customer is not None:
            named[call.task.customer].update(call.task.items())
        elif len(set(call.task.items())) > 1 and len(together) < MOST_UPDATES:
            together.add(frozenset(call.task.items()))
    for items in together:
        yield frozenset(), items, NEVER
    for customer in history.customers:
        yield frozenset({customer}), frozenset(named[customer]), NEVER
    for item in history.items:
        yield frozenset(history.bookings.customers[item]), frozenset({item}), NEVER


def _scopes_of_verdict(history: History) -> Iterator[ScopeUntil]:
    """The scopes of the calls that a verdict points at, up to their return."""
    for call in history.starts:
        customers = frozenset() if call.task.customer is None else frozenset({call.task.customer})
        for items in _item_choices(call, history.bookings):
            if customers or items:
                yield customers, items, call.end


def _item_choices(call: Call, bookings: Bookings) -> list[frozenset[Item]]:
    """Sets of items that may be enough to show that the call is wrong, small ones first."""
    own = frozenset(call.task.items())
    billed = frozenset(bookings.billed(call)) if call.task.name in ("bill", "leave") else frozenset()
    return list(dict.fromkeys([frozenset(), own, billed, own | billed]))


def _whole(history: History, blocks: int) -> list[Contradiction]:
    """A contradiction that no scope shows: of the whole history, with its reports and its refusals for want of
    room."""
    if len(history.calls) > MOST_WHOLE:
        return []
    try:
        search = Search(history.calls, blocks=blocks)
    except TooManyPositions:
        return []
    if search.first_wrong is None:
        return []
    call = search.calls[search.first_wrong]
    calls = cut(history.calls, call.end)
    return [Contradiction(frozenset(), frozenset(), call, Part([{}], calls, blocks))]


def _narrowed(history: History, found: Contradiction) -> Contradiction:
    """The contradiction with few items of its scope, up to the return of the wrong answer."""
    if found.part.blocks is not None or not history.is_whole:
        return found
    tries = _item_choices(found.call, history.bookings) if found.customers else []
    for items in [*tries, found.items]:
        part = history.part(found.customers, items, found.call.end)
        bad = part.wrong()
        if bad is not None and bad.number == found.call.number:
            return Contradiction(found.customers, items, found.call, part)
    return replace(found, part=found.part.with_calls(cut(found.part.calls, found.call.end)))


# ---- explanations

def explain(history: History, found: Contradiction) -> Finding | None:
    """The few calls of a contradiction, with what they are called. If the calls that overlap the wrong answer do not
    explain it, the likeliest cause is looked for before them."""
    began = time.monotonic()
    found = _narrowed(history, found)
    few, causes = few_calls(found, found.near()), []
    if len(few.calls) > MANY:
        # A call that ran for long overlaps many others that explain nothing.
        few = min(few, few_calls(found, [found.wrong]), key=lambda part: len(part.calls))
    levels = levels_of(few)
    if found.part.blocks is None and (len(few.calls) == 1 or not levels.schedules):
        causes = causes_of(history, found)
        few = few_calls(found, _with_cause(found, causes))
        levels = levels_of(few)
    wrong = next((call for call in few.calls if call.number == found.call.number and call.is_complete), None)
    if wrong is None:
        return None
    ends = dead_ends(few, few.openings[0])
    return Finding(found, few, levels, causes, ends, name(few, wrong, levels, causes, ends),
                   time.monotonic() - began)


def _with_cause(found: Contradiction, causes: list[Cause]) -> list[Call]:
    """The calls that overlap the wrong answer, the likeliest cause, and what ran beside the cause."""
    wrong, needed = found.wrong, {call.number: call for call in found.near()}
    for cause in causes[:1]:
        needed[cause.call.number] = cause.call
        needed |= {call.number: call for call in found.part.calls
                   if call.overlaps(cause.call) and not is_read_only(call)}
    if len(needed) == 1 or causes and causes[0].fault is Fault.EARLY:
        entries = set(wrong.task.items()) | {wrong.task.customer}
        past = [call for call in found.part.calls if call.precedes(wrong) and not is_read_only(call)
                and not entries.isdisjoint({*call.task.items(), call.task.customer})]
        needed |= {call.number: call for call in sorted(past, key=lambda call: call.end)[-1:]}
    return list(needed.values())


def _prove(finding: Finding, history: History, program: Program, log: Path) -> None:
    """Has the program write the part of the log on the scope of the contradiction and judge it, and then on that
    scope with all that its customers book, where bills count."""
    customers, items = finding.found.customers, finding.found.items
    booked = items.union(*(history.bookings.items.get(customer, ()) for customer in customers))
    for wanted in dict.fromkeys((items, booked)):
        lines = program.part(log, customers, wanted)
        if lines is not None and is_illegal(program.judge(lines)):
            finding.proved_calls = len(lines)
            return


def confirm(finding: Finding, program: Program) -> None:
    """Has the program judge the part and the few calls, and the few calls without their times."""
    blocks = finding.few.blocks
    finding.part_verdicts = [program.judge((call.line() for call in finding.found.part.calls), blocks)]
    finding.few_verdicts = [program.judge(lines, blocks) for lines in finding.logs()]
    if finding.is_confirmed:
        finding.sure.add(LINEARIZABLE)
    for level, keeps_clients in ((SEQUENTIAL, True), (SERIALIZABLE, False)):
        calls = timeless(finding.few.calls, keeps_clients)
        verdicts = [program.judge(history_lines(opening, calls), blocks) for opening in finding.few.openings]
        if finding.levels.allowed[level] is False and all(map(is_illegal, verdicts)) \
                or finding.levels.allowed[level] and any(verdict.startswith("legal") for verdict in verdicts):
            finding.sure.add(level)


def findings(history: History, blocks: int, program: Program, log: Path | None = None,
             most: int = MOST_EXPLAINED) -> tuple[list[Finding], list[Contradiction]]:
    """The confirmed findings, the one that few calls explain and that is early first; and all contradictions. From
    the file of the log the program writes the parts that it proves illegal."""
    progress = Progress()
    found = contradictions(history, blocks, progress)
    until, explained = time.monotonic() + MOST_SECONDS, []
    for place, one in enumerate(found[:most], 1):
        progress.tell(lambda: f"explaining contradiction {place} of {min(most, len(found))}")
        finding = explain(history, one)
        if finding is not None:
            confirm(finding, program)
            if finding.is_confirmed:
                if log is not None:
                    _prove(finding, history, program, log)
                explained.append(finding)
        if explained and time.monotonic() > until:
            break
    return sorted(explained, key=lambda one: (one.kind.name == UNKNOWN, len(one.few.calls) > 6,
                                              one.choices > MANY_CHOICES, one.found.call.end)), found


def kinds(explained: Iterable[Finding]) -> Counter:
    """Number of findings of each name."""
    return Counter(one.kind.name for one in explained)
