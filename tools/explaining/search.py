"""A search for linearizations of short histories that keeps all possible *positions*.

The search goes through a history in the order of time. A position is the set of running calls that have taken
effect, and the state. If no position is left after a call has returned, that call has the first wrong answer. The
result is a finding of the script: what is claimed of it is confirmed by the program."""

from __future__ import annotations

from collections.abc import Iterable
from dataclasses import dataclass
from typing import TypeAlias

from .model import State, run
from .tasks import Call, Task, is_read_only

MOST_POSITIONS = 20_000
# The most states before the few calls: each is a case of its own.
MOST_OPENINGS = 4
# Steps of a search: so many, and so many more for each call.
FIRST_STEPS, STEPS_PER_CALL = 20_000, 400


class TooManyPositions(Exception):
    """The search ran into its bounds."""


class States:
    """States by number, and what tasks do to them; each task runs once in each state."""

    def __init__(self, blocks: int | None = None):
        self.blocks = blocks
        self.states: list[State] = []
        self._numbers: dict[frozenset, int] = {}
        self._steps: dict[tuple[int, Task], tuple[str, int]] = {}

    def number(self, state: State) -> int:
        key = frozenset(state.items())
        if key not in self._numbers:
            self._numbers[key] = len(self.states)
            self.states.append(state)
        return self._numbers[key]

    def step(self, number: int, task: Task) -> tuple[str, int]:
        """The reply to a task in a state, and the number of the state after it."""
        found = self._steps.get((number, task))
        if found is None:
            state = self.states[number]
            reply, after = run(state, task, self.blocks)
            found = self._steps[number, task] = reply, number if after is state else self.number(after)
        return found


# The places of running calls that have taken effect, and the number of the state.
Position: TypeAlias = tuple[frozenset[int], int]


@dataclass(frozen=True)
class Moment:
    """The situation after an event: the number of calls that have begun, those that run, and the possible
    positions."""
    begun: int
    running: tuple[int, ...]
    positions: frozenset[Position]


@dataclass
class Search:
    """A walk through a history. `first_wrong` is the place of the call with the first wrong answer, `narrow` the last
    moment before a time at which few states are possible, and the same running calls have taken effect in all."""
    calls: list[Call]
    openings: Iterable[State] = ({},)
    blocks: int | None = None
    narrow_before: int = 0
    most: int = MOST_POSITIONS
    narrow: Moment | None = None
    first_wrong: int | None = None

    def __post_init__(self) -> None:
        self.states = States(self.blocks)
        self._running: list[int] = []
        self._read_only = [is_read_only(call) for call in self.calls]
        self._earlier = self._earlier_of_client()
        self._steps_left = FIRST_STEPS + STEPS_PER_CALL * len(self.calls)
        self.begin_order = sorted(range(len(self.calls)), key=lambda place: (self.calls[place].begin, place))
        self._walk()

    def _earlier_of_client(self) -> list[int | None]:
        """The call of the same client before each call."""
        last: dict[int, int] = {}
        earlier: list[int | None] = [None] * len(self.calls)
        for place in sorted(range(len(self.calls)),
                            key=lambda place: (self.calls[place].begin, self.calls[place].end, place)):
            earlier[place] = last.get(self.calls[place].client)
            last[self.calls[place].client] = place
        return earlier

    def _events(self) -> list[tuple[int, bool, int]]:
        """Times at which calls begin and return; at equal times beginnings come first, so that calls overlap."""
        events = [(call.begin, False, place) for place, call in enumerate(self.calls)]
        events += [(call.end, True, place) for place, call in enumerate(self.calls) if call.is_complete]
        return sorted(events)

    def _walk(self) -> None:
        positions = {(frozenset(), self.states.number(opening)) for opening in self.openings}
        begun = 0
        for time, is_end, place in self._events():
            if is_end:
                positions = self._return(place, positions)
            else:
                begun += 1
                self._running.append(place)
                if self._read_only[place]:
                    positions = {self._settled(*position) for position in positions}
            if time < self.narrow_before and len(positions) <= MOST_OPENINGS \
                    and len({placed for placed, _ in positions}) == 1:
                self.narrow = Moment(begun, tuple(self._running), frozenset(positions))
            if not positions:
                self.first_wrong = place
                return

    def _return(self, place: int, positions: set[Position]) -> set[Position]:
        """The positions after a call has returned: those reached by letting running calls take effect until the
        call has."""
        reached, todo, seen = set(), list(positions), set(positions)
        while todo:
            placed, state = todo.pop()
            if place in placed:
                reached.add((placed - {place}, state))
                continue
            self._steps_left -= len(self._running)
            if self._steps_left < 0 or len(seen) > self.most:
                raise TooManyPositions
            for position in self._successors(placed, state):
                if position not in seen:
                    seen.add(position)
                    todo.append(position)
        self._running.remove(place)
        return reached

    def _successors(self, placed: frozenset[int], state: int) -> Iterable[Position]:
        for place in self._running:
            if place in placed or not self._is_in_turn(place, placed):
                continue
            call = self.calls[place]
            reply, after = self.states.step(state, call.task)
            if call.reply is None or reply == call.reply:
                yield self._settled(placed | {place}, after)

    def _settled(self, placed: frozenset[int], state: int) -> Position:
        """The position after all running calls that change nothing and are correct here have taken effect."""
        changed = True
        while changed:
            changed = False
            for place in self._running:
                if self._read_only[place] and place not in placed and self._is_in_turn(place, placed) \
                        and self.states.step(state, self.calls[place].task)[0] == self.calls[place].reply:
                    placed, changed = placed | {place}, True
        return placed, state

    def _is_in_turn(self, place: int, placed: frozenset[int]) -> bool:
        """Returns whether the call before of the same client has taken effect."""
        earlier = self._earlier[place]
        return earlier is None or earlier in placed or earlier not in self._running


def first_wrong(calls: list[Call], openings: Iterable[State] = ({},), blocks: int | None = None) -> Call | None:
    """The call with the first wrong answer; none if there is none or the search ran into its bounds."""
    try:
        found = Search(calls, openings, blocks).first_wrong
    except TooManyPositions:
        return None
    return None if found is None else calls[found]
