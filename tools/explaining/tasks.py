"""Tasks, calls and replies of the reservation system, and the lines that write them (docs/RULES.md)."""

from __future__ import annotations

from dataclasses import dataclass, replace
from typing import TypeAlias

KINDS = ("car", "flight", "room")
# The end of a call that never returned: later than every stamp.
NEVER = 1 << 64
MOST_STAMP_DIGITS = 20

# An item: its kind and id.
Item: TypeAlias = tuple[str, int]


class BadLine(ValueError):
    """A line that is no call of a history."""


@dataclass(frozen=True, slots=True)
class Task:
    """A task. `number` is a count of units, `asks` belong to a trip, `changes` to an update."""
    name: str
    customer: int | None = None
    item: Item | None = None
    number: int | None = None
    price: int | None = None
    asks: tuple[Item, ...] = ()
    changes: tuple[Task, ...] = ()

    def line(self) -> str:
        """The line of the task."""
        match self.name:
            case "add":
                return f"add {item_text(self.item)} {self.number} {'-' if self.price is None else self.price}"
            case "del":
                return f"del {item_text(self.item)}" + ("" if self.number is None else f" {self.number}")
            case "reserve":
                return f"reserve {self.customer} {item_text(self.item)}" + (
                    f" {self.number}" if self.number != 1 else "")
            case "trip":
                return f"trip {self.customer} " + " ".join(map(item_text, self.asks))
            case "update":
                return "update " + " ; ".join(change.line() for change in self.changes)
        words = [self.name] + ([] if self.customer is None else [str(self.customer)])
        return " ".join(words + ([] if self.item is None else [item_text(self.item)]))

    def items(self) -> tuple[Item, ...]:
        """The items that the task names."""
        named = self.asks + tuple(change.item for change in self.changes)
        return named if self.item is None else (self.item, *named)


@dataclass(frozen=True, slots=True)
class Call:
    """A call of a history: the number of its line, its client, its stamps, its task and its reply.

    A pending call has no reply and the end `NEVER`. An *undetermined* call has a reply and the end `NEVER`: the call
    took effect with this reply or not at all. The log says so, or the history was cut while the call ran."""
    number: int
    client: int
    begin: int
    end: int
    task: Task
    reply: str | None

    @property
    def is_complete(self) -> bool:
        return self.end < NEVER

    @property
    def is_undetermined(self) -> bool:
        return self.end == NEVER and self.reply is not None

    def line(self) -> str:
        """The line of the call in a history."""
        end = self.end if self.is_complete else "-"
        return f"{self.client} {self.begin} {end} {self.task.line()} -> {'?' if self.reply is None else self.reply}"

    def overlaps(self, other: Call) -> bool:
        """Returns whether the calls ran at the same time."""
        return self.begin <= other.end and other.begin <= self.end

    def precedes(self, other: Call) -> bool:
        """Returns whether the call had returned before the other began."""
        return self.end < other.begin


def item_text(item: Item) -> str:
    return f"{item[0]} {item[1]}"


def read_task(text: str) -> Task:
    """Reads the line of a task."""
    words = text.split(" ")
    try:
        task = _command(words) or _composite(words)
    except ValueError:
        task = None
    if task is None:
        raise BadLine(text)
    return task


def _command(words: list[str]) -> Task | None:
    match words:
        case ["add", kind, item, number, price] if kind in KINDS:
            return Task("add", item=(kind, int(item)), number=int(number),
                        price=None if price == "-" else int(price))
        case ["del", "flight", item]:
            return Task("del", item=("flight", int(item)))
        case ["del", "car" | "room" as kind, item, number]:
            return Task("del", item=(kind, int(item)), number=int(number))
        case ["free" | "price" as name, kind, item] if kind in KINDS:
            return Task(name, item=(kind, int(item)))
        case ["newcust" | "dropcust" | "bill" | "leave" as name, customer]:
            return Task(name, int(customer))
        case ["reserve", customer, kind, item, *units] if kind in KINDS and len(units) < 2:
            return Task("reserve", int(customer), (kind, int(item)), int(units[0]) if units else 1)
        case ["cancel", customer, kind, item] if kind in KINDS:
            return Task("cancel", int(customer), (kind, int(item)))
        case ["audit"]:
            return Task("audit")
    return None


def _composite(words: list[str]) -> Task | None:
    match words:
        case ["trip", customer, *asks] if asks and len(asks) % 2 == 0 and set(asks[::2]) <= set(KINDS):
            return Task("trip", int(customer), asks=tuple(zip(asks[::2], map(int, asks[1::2]))))
        case ["update", *rest] if rest:
            changes = tuple(read_task(change) for change in " ".join(rest).split(" ; "))
            if all(change.name in ("add", "del") for change in changes):
                return Task("update", changes=changes)
    return None


def read_call(number: int, line: str) -> Call:
    """Reads a line of a history."""
    head, arrow, reply = line.partition(" -> ")
    words = head.split(" ", 3)
    if not arrow or len(words) < 4 or not words[0].isdecimal() or not words[1].isdecimal():
        raise BadLine(f"line {number}")
    if words[2] == "-":
        return Call(number, int(words[0]), int(words[1]), NEVER, read_task(words[3]), None if reply == "?" else reply)
    if not words[2].isdecimal() or len(words[2]) > MOST_STAMP_DIGITS or reply == "?":
        raise BadLine(f"line {number}")
    return Call(number, int(words[0]), int(words[1]), int(words[2]), read_task(words[3]), reply)


@dataclass(frozen=True, slots=True)
class TripReply:
    """The parts of a trip's reply: the word for the customer, and of each kind that was picked the item and
    the word for its reservation."""
    customer: str
    picks: dict[str, tuple[Item, str]]

    def text(self) -> str:
        words = [f"{kind}={self.picks[kind][0][1]}:{self.picks[kind][1]}" if kind in self.picks else f"{kind}=-"
                 for kind in KINDS]
        return " ".join(["trip", f"cust={self.customer}", *words])

    def only(self, kinds) -> TripReply:
        """The reply without the picks of other kinds."""
        return replace(self, picks={kind: pick for kind, pick in self.picks.items() if kind in kinds})

    def booked(self) -> list[Item]:
        """The items that the trip booked."""
        return [item for item, word in self.picks.values() if word == "true"]


def read_trip(reply: str | None) -> TripReply | None:
    """Reads the reply to a trip, or returns none if the text is no such reply."""
    words = (reply or "").split(" ")
    if len(words) != 5 or words[0] != "trip" or not words[1].startswith("cust="):
        return None
    picks = {}
    for kind, word in zip(KINDS, words[2:]):
        name, _, value = word.partition("=")
        item, colon, reason = value.partition(":")
        if name != kind or value != "-" and not (colon and item.isdecimal()):
            return None
        if value != "-":
            picks[kind] = ((kind, int(item)), reason)
    return TripReply(words[1][len("cust="):], picks)


def read_update(task: Task, reply: str | None) -> list[str] | None:
    """The word for each change of an update, or none if the text is no such reply."""
    words = (reply or "").split(" ")
    return words[1:] if words[0] == "update" and len(words) == 1 + len(task.changes) else None


def is_probe(task: Task) -> bool:
    """Returns whether the task only asks whether items exist: it adds no units and sets no price."""
    changes = task.changes if task.name == "update" else (task,)
    return all(change.name == "add" and change.number == 0 and change.price is None for change in changes)


def is_read_only(call: Call) -> bool:
    """Returns whether the call, with its reply, changes no state in which that reply is correct."""
    if call.reply is None:
        return False
    match call.task.name:
        case "free" | "price" | "bill" | "audit":
            return True
        case "leave":
            return call.reply == "-1"
        case "update":
            return is_probe(call.task) or "true" not in (read_update(call.task, call.reply) or ["true"])
        case "trip":
            parts = read_trip(call.reply)
            return parts is not None and parts.customer != "true" and not parts.booked()
        case "add":
            return is_probe(call.task) or call.reply != "true"
    return call.reply != "true"
