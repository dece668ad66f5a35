"""Histories: the calls of a log and what they name; of a large log only what its verdict points at."""

from __future__ import annotations

import sys
import time
from array import array
from collections import defaultdict
from collections.abc import Callable, Iterable, Iterator
from dataclasses import dataclass
from pathlib import Path

from .parts import Bookings, Scope, cut, project
from .reduction import Part
from .tasks import NEVER, Call, Item, read_call

# A log of so many calls is looked through whole.
SMALL = 12_000
# Number of calls, by the time of their return, before and after the place of an undecided search.
NEAR = 24
# The most calls that an index keeps of a large log, and the most calls that it starts from.
MOST_KEPT, MOST_STARTS = 400_000, 3
# Seconds between two lines of progress.
PAUSE = 3
# A customer that stands for strangers: no item is known to be booked by the customers of a scope alone.
STRANGER = -1


class Progress:
    """Lines on standard error that tell how far a long run is."""

    def __init__(self) -> None:
        self._next = time.monotonic() + PAUSE

    def tell(self, text: Callable[[], str]) -> None:
        if time.monotonic() >= self._next:
            print(f"explain: {text()}", file=sys.stderr, flush=True)
            self._next = time.monotonic() + PAUSE


class History:
    """Calls, indexed by the customers and items that they name; `count` is the number of all calls of the log. If
    the calls are not all, the verdict points at `starts`, and no item counts as closed."""

    def __init__(self, calls: list[Call], count: int, starts: list[Call] | None = None):
        self.calls, self.count, self.is_whole = calls, count, starts is None
        self.starts = starts or []
        self.by_number = {call.number: call for call in calls}
        self._of_customer: dict[int, list[int]] = defaultdict(list)
        self._of_item: dict[Item, list[int]] = defaultdict(list)
        for place, call in enumerate(calls):
            if call.task.customer is not None:
                self._of_customer[call.task.customer].append(place)
            for item in dict.fromkeys(call.task.items()):
                self._of_item[item].append(place)
        self.bookings = Bookings(calls)
        if not self.is_whole:
            for item in self._of_item:
                self.bookings.customers[item].add(STRANGER)

    @property
    def customers(self) -> list[int]:
        return sorted(self._of_customer)

    @property
    def items(self) -> list[Item]:
        return sorted(self._of_item)

    def has_times(self) -> bool:
        """Returns whether the stamps order any two calls."""
        return min((call.begin for call in self.calls), default=0) < max(
            (call.end for call in self.calls if call.is_complete), default=0)

    def naming(self, customers: Iterable[int], items: Iterable[Item]) -> list[Call]:
        """The calls that name any of these, in their order."""
        places = {place for customer in customers for place in self._of_customer.get(customer, ())}
        places.update(place for item in items for place in self._of_item.get(item, ()))
        return [self.calls[place] for place in sorted(places)]

    def part(self, customers: Iterable[int], items: Iterable[Item], until: int = NEVER) -> Part:
        """The part of the history on a scope, up to a moment."""
        calls = self.naming(customers, items)
        bookings = self.bookings
        if until < NEVER:
            calls = cut(calls, until)
            bookings = Bookings(calls) if self.is_whole else bookings
        return Part([{}], project(calls, Scope(frozenset(customers), frozenset(items), bookings)))


@dataclass(frozen=True)
class Log:
    """The file of a history; it is read as often as is needed and never kept whole unless it is small."""
    path: Path

    def lines(self) -> Iterator[tuple[int, str]]:
        with open(self.path, encoding="ascii", errors="replace") as file:
            for number, line in enumerate(file, 1):
                yield number, line.rstrip("\n")

    def calls(self, want: Callable[[str], bool], progress: Progress, what: str) -> Iterator[Call]:
        """The calls of the lines that are wanted."""
        for number, line in self.lines():
            progress.tell(lambda: f"{what}: line {number:,}")
            if want(line):
                yield read_call(number, line)

    def history(self, verdict: list[str], reads_all: bool = False) -> History:
        """The calls that matter for a verdict."""
        count = sum(1 for _ in self.lines())
        progress = Progress()
        if reads_all or count <= SMALL:
            return History(list(self.calls(lambda _: True, progress, "reading")), count)
        starts = self._starts(verdict, progress)
        until = max((call.end for call in starts if call.is_complete), default=0)
        customers = {call.task.customer for call in starts if call.task.customer is not None}
        items = {item for call in starts for item in call.task.items()}
        kept = self._kept([f" {customer} " for customer in customers], until, progress,
                          lambda call: call.task.customer in customers)
        items |= {item for customer in customers for item in Bookings(kept).items[customer]}
        changing = self._kept([" add ", " del "], until, progress,
                              lambda call: call.task.name in ("add", "del", "update")
                              and not items.isdisjoint(call.task.items()))
        calls = {call.number: call for call in [*kept, *changing, *starts]}
        return History([calls[number] for number in sorted(calls)], count, starts)

    def _kept(self, marks: list[str], until: int, progress: Progress, keep: Callable[[Call], bool]) -> list[Call]:
        """The calls that began by a moment and are to be kept; their lines have one of the marks."""
        def want(line: str) -> bool:
            padded = line.replace(" -> ", "  -> ", 1)
            return any(mark in padded for mark in marks) and int(line.split(" ", 2)[1]) <= until

        found = []
        for call in self.calls(want, progress, "collecting calls"):
            if keep(call):
                found.append(call)
                if len(found) >= MOST_KEPT:
                    break
        return found

    def _starts(self, verdict: list[str], progress: Progress) -> list[Call]:
        """The calls that the verdict points at: those that are stuck, or those near the place of an undecided
        search."""
        numbers = stuck_numbers(verdict)
        words = verdict[0].split(" ")
        if not numbers and words[-1].isdecimal():
            ends = array("Q")
            lines = array("Q")
            for number, line in self.lines():
                end = line.split(" ", 3)[2]
                if end != "-":
                    ends.append(int(end))
                    lines.append(number)
            order = sorted(range(len(ends)), key=ends.__getitem__)
            place = int(words[-1])
            numbers = [lines[at] for at in order[max(0, place - NEAR):place + NEAR]]
        wanted = set(numbers[:2 * NEAR])
        found = []
        for number, line in self.lines():
            progress.tell(lambda: f"finding the place: line {number:,}")
            if number in wanted:
                found.append(read_call(number, line))
        return sorted(found, key=lambda call: call.end)[:2 * NEAR if not stuck_numbers(verdict) else MOST_STARTS]


def stuck_numbers(verdict: list[str]) -> list[int]:
    """The numbers of the lines that the verdict calls stuck."""
    found = [line.split(" ") for line in verdict[1:]]
    return [int(words[1]) for words in found if words[0] == "stuck" and len(words) > 1 and words[1].isdecimal()]
