"""Calls of a key-value store, their lines, and what is said of a conversion."""

from __future__ import annotations

from collections import Counter
from collections.abc import Iterable
from dataclasses import dataclass, field, replace
from enum import Enum
from typing import TextIO

MOST_CLIENTS, MOST_TIMES = 1 << 32, 1 << 64


class Fault(Exception):
    """A line of a foreign history that is no part of a call and that no rule skips."""

    def __init__(self, name: str, line: int, why: str) -> None:
        super().__init__(f"fault {name} {line}")
        self.why = why


class Change(Enum):
    """A change of a transaction that is no value."""
    KEEP = "="


@dataclass(frozen=True, slots=True)
class Operation:
    """An operation of a key-value store: its name, its key, and the values behind the key. In a transaction None
    stands for a missing value. A transaction over several keys has clauses instead: a role, a key and a value."""
    name: str
    key: bytes
    values: tuple[bytes | Change | None, ...] = ()
    clauses: tuple[tuple[str, bytes, bytes | None], ...] | None = None

    @property
    def keys(self) -> list[bytes]:
        return [self.key] if self.clauses is None else [key for _, key, _ in self.clauses]

    def words(self) -> list[str]:
        """The words of the operation."""
        if self.clauses is not None:
            return [self.name, *(word for role, key, value in self.clauses
                                 for word in (role, quoted(key), value_word(value)))]
        return [self.name, quoted(self.key), *map(value_word, self.values)]


@dataclass(frozen=True, slots=True)
class Call:
    """A call, with the lines of the foreign history on which it began and returned. A pending call has neither an
    end nor a reply, and an undetermined call has no end. The last line of either is the one on which it began."""
    client: int
    begin: int
    end: int | None
    operation: Operation
    reply: str | None
    lines: tuple[int, int]


@dataclass(frozen=True, slots=True)
class Options:
    """What a user says of a history."""
    failed_cas_is_false: bool = False
    empty_is_missing: bool = False
    split: bool = False


@dataclass
class Report:
    """What was counted, skipped and assumed."""
    skipped: Counter[str] = field(default_factory=Counter)
    assumed: dict[str, None] = field(default_factory=dict)

    def skip(self, what: str, count: int = 1) -> None:
        self.skipped[what] += count

    def assume(self, what: str) -> None:
        self.assumed[what] = None

    def write(self, calls: int, pending: int, out: TextIO) -> None:
        """Writes what was read, skipped and assumed, a line for each."""
        print(f"convert: calls={calls}, of which pending={pending}", file=out)
        for what, count in self.skipped.items():
            print(f"convert: skipped: {count} {what}", file=out)
        for what in self.assumed:
            print(f"convert: assumed: {what}", file=out)
        print("convert: not proved: that this conversion is right. A verdict is proved of the lines that it wrote.",
              file=out)


def quoted(value: bytes) -> str:
    """A value as a quoted word."""
    return '"' + "".join(chr(byte) if 32 < byte < 127 and byte not in b'"%' else f"%{byte:02x}"
                         for byte in value) + '"'


def value_word(value: bytes | Change | None) -> str:
    """A value as a word: what a key has, or a change to it."""
    if isinstance(value, Change):
        return value.value
    return "-" if value is None else quoted(value)


def truth(is_done: bool) -> str:
    return "true" if is_done else "false"


def line_of(call: Call) -> str:
    """The line of a call, without its end."""
    words = [str(call.client), str(call.begin), "-" if call.end is None else str(call.end), *call.operation.words()]
    return " ".join([*words, "->", "?" if call.reply is None else call.reply])


def is_whole(calls: Iterable[Call]) -> bool:
    """Whether calls are to be judged as those of a whole store: a transaction may have several keys."""
    return any(call.operation.clauses is not None for call in calls)


def in_order(calls: Iterable[Call]) -> list[Call]:
    """Calls in the order of their beginnings, which puts those of each client in their own."""
    return sorted(calls, key=lambda call: (call.begin, call.lines))


def with_first_values(calls: list[Call], values: dict[bytes, bytes]) -> list[Call]:
    """The calls behind others that write first values: those of a client of its own, before all times."""
    client, shift = max((call.client for call in calls), default=0) + 1, 2 * len(values)
    first = [Call(client, 2 * place, 2 * place + 1, Operation("put", key, (value,)), "ok", (0, 0))
             for place, (key, value) in enumerate(values.items())]
    return first + [replace(call, begin=call.begin + shift, end=None if call.end is None else call.end + shift)
                    for call in calls]


def fits(calls: Iterable[Call]) -> None:
    """Faults a call whose client or times no line can write."""
    for call in calls:
        if call.client >= MOST_CLIENTS or max(call.begin, call.end or 0) >= MOST_TIMES:
            raise Fault("bad-number", call.lines[1], "a time is 2^64 or later, or there are 2^32 clients")
