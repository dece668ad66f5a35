"""Calls that have begun and not yet returned, with the order of events as the clock."""

from __future__ import annotations

from collections.abc import Hashable, Iterator
from dataclasses import dataclass
from typing import Any

from .calls import Call, Fault, Operation


@dataclass(frozen=True, slots=True)
class Begun:
    """A call that has begun: the client who made it, when and on which line, and what it asks."""
    client: int
    begin: int
    line: int
    asked: Any

    def returned(self, operation: Operation, reply: str, end: int, line: int) -> Call:
        return Call(self.client, self.begin, end, operation, reply, (self.line, line))

    def pending(self, operation: Operation) -> Call:
        return Call(self.client, self.begin, None, operation, None, (self.line, self.line))


class Events:
    """The calls that are open, by who made them. The n-th event is at the time n, so that no two are at one time.

    Whoever leaves a call open for ever and begins another counts as a new client from then on."""

    def __init__(self) -> None:
        self.time = 0
        self.open: dict[Hashable, Begun] = {}
        self.clients: dict[Hashable, int] = {}
        self.count = 0

    def new_client(self) -> int:
        self.count += 1
        return self.count - 1

    def begin(self, who: Hashable, line: int, asked: Any) -> None:
        if who in self.open:
            raise Fault("two-open-calls", line, f"{who} has not ended its call of line {self.open[who].line}")
        if who not in self.clients:
            self.clients[who] = self.new_client()
        self.time += 1
        self.open[who] = Begun(self.clients[who], self.time, line, asked)

    def end(self, who: Hashable, line: int) -> Begun:
        if who not in self.open:
            raise Fault("no-call", line, f"{who} has no open call")
        self.time += 1
        return self.open.pop(who)

    def leave(self, who: Hashable, line: int) -> Begun:
        """Ends a call whose outcome is unknown, which stays pending."""
        begun = self.end(who, line)
        del self.clients[who]
        return begun

    def left(self) -> Iterator[Begun]:
        """The calls that never ended."""
        while self.open:
            _, begun = self.open.popitem()
            yield begun
