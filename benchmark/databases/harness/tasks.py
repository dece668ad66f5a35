"""The workloads: the tasks of docs/RULES.md, section 1, and the operations on single keys of its section
"Histories of a key-value store". Reads their lines, and makes the texts of their replies. How a command is done
is left to the modules `sql` and `keyvalue`."""

import subprocess
from abc import ABC, abstractmethod
from collections.abc import Callable, Iterable
from dataclasses import dataclass
from enum import Enum
from random import Random

KINDS = ("car", "flight", "room")
MOST_TOTAL = 1_000_000_000
MOST_UNITS = 10_000
REPORTED = ("cars", "flights", "rooms", "customers", "bookings", "used", "free", "total", "billed")
# The tasks that change nothing.
READS = ("free", "price", "bill", "audit", "get")
# The keys, and the values that they are given: so few that a comparison often holds.
KEYS, VALUES = ('"a"', '"b"', '"c"', '"d"'), tuple(f'"{value}"' for value in range(5))
# Longest time for which the program may draw tasks, in seconds.
PATIENCE = 60


class Workload(Enum):
    """The tasks that clients run, and the judge to which their history goes."""
    RESERVATIONS = "reservations"
    KEYS = "keys"


def is_read(line: str) -> bool:
    """Returns whether the task of a line changes nothing."""
    return line.split(" ", 1)[0] in READS


class Rules(ABC):
    """The commands and tasks within one transaction. A command returns the name of its refusal, or none if it
    is done. `midway` is called once in the middle of each task of several commands; only clients that are
    wrong on purpose do anything there."""

    def __init__(self, midway: Callable[[], None] = lambda: None):
        self._midway = midway

    def reply(self, line: str) -> str:
        """Runs the task of a line, and returns the text of its reply."""
        match line.split(" "):
            case ["add" | "del", *_] as words:
                return _said(self._change(words))
            case ["newcust", customer]:
                return _said(self.new_customer(int(customer)))
            case ["dropcust", customer]:
                return _said(self.drop_customer(int(customer)))
            case ["free" | "price" as column, kind, item]:
                return _number(self.read(column, kind, int(item)))
            case ["bill", customer]:
                return _number(self.bill(int(customer)))
            case ["reserve", customer, kind, item, *units] if len(units) < 2:
                return _said(self.reserve(int(customer), kind, int(item), *map(int, units)))
            case ["cancel", customer, kind, item]:
                return _said(self.cancel(int(customer), kind, int(item)))
            case ["audit"]:
                report = self.audit()
                return " ".join(f"{name}={int(report[name])}" for name in REPORTED)
            case ["trip", customer, *asks] if asks and len(asks) % 2 == 0:
                return self.trip(int(customer), list(zip(asks[::2], map(int, asks[1::2]))))
            case ["leave", customer]:
                return _number(self.leave(int(customer)))
            case ["update", *words]:
                return self.update([change.split(" ") for change in " ".join(words).split(" ; ")])
            case ["get", key]:
                return self.value(key) or "-"
            case ["put", key, value]:
                self.set_value(key, value)
                return "ok"
            case ["cas", key, old, new]:
                return self.compare_and_set(key, old, new)
        raise ValueError(f"no task: {line!r}")

    def trip(self, customer: int, asks: list[tuple[str, int]]) -> str:
        """Picks the dearest item of each kind, and books one unit of each pick."""
        picks = self.picks(asks)
        self._midway()
        found = self.new_customer(customer) or "true" if picks else "-"
        booked = {kind: f"{picks[kind]}:{self.reserve(customer, kind, picks[kind]) or 'true'}"
                  for kind in KINDS if kind in picks}
        return f"trip cust={found} " + " ".join(f"{kind}={booked.get(kind, '-')}" for kind in KINDS)

    def leave(self, customer: int) -> int | None:
        """Returns the bill; the customer goes."""
        bill = self.bill(customer)
        self._midway()
        if bill is not None:
            self.drop_customer(customer)
        return bill

    def update(self, changes: list[list[str]]) -> str:
        """Changes items one after the other."""
        said = []
        for position, change in enumerate(changes):
            if position == len(changes) // 2:
                self._midway()
            said.append(self._change(change) or "true")
        return " ".join(["update", *said])

    def compare_and_set(self, key: str, old: str, new: str) -> str:
        """Gives a key a new value if it has the old one."""
        if self.value(key) != old:
            return "false"
        self._midway()
        self.set_value(key, new)
        return "true"

    def _change(self, words: list[str]) -> str | None:
        """Does an `add` or a `del` line."""
        match words:
            case ["add", kind, item, num, price]:
                return self.add(kind, int(item), int(num), None if price == "-" else int(price))
            case ["del", "flight", item]:
                return self.drop_flight(int(item))
            case ["del", kind, item, num]:
                return self.delete(kind, int(item), int(num))
        raise ValueError(f"no change: {' '.join(words)!r}")

    @abstractmethod
    def add(self, kind: str, item: int, num: int, price: int | None) -> str | None:
        """Makes an item, or adds units to it and sets its price."""

    @abstractmethod
    def delete(self, kind: str, item: int, num: int) -> str | None:
        """Takes free units of a car or a room away."""

    @abstractmethod
    def drop_flight(self, item: int) -> str | None:
        """Takes a flight away."""

    @abstractmethod
    def new_customer(self, customer: int) -> str | None:
        """Makes a customer without bookings."""

    @abstractmethod
    def drop_customer(self, customer: int) -> str | None:
        """Gives all units of a customer back; the customer goes."""

    @abstractmethod
    def reserve(self, customer: int, kind: str, item: int, units: int = 1) -> str | None:
        """Books units of an item at today's price."""

    @abstractmethod
    def cancel(self, customer: int, kind: str, item: int) -> str | None:
        """Gives all units of a booking back; the booking goes."""

    @abstractmethod
    def read(self, column: str, kind: str, item: int) -> int | None:
        """Returns the free units or the price of an item, or none for a missing item."""

    @abstractmethod
    def bill(self, customer: int) -> int | None:
        """Returns the sum of the prices kept in the bookings, or none for a missing customer."""

    @abstractmethod
    def picks(self, asks: list[tuple[str, int]]) -> dict[str, int]:
        """Returns the dearest item of each kind, of equal ones the first that is asked for."""

    @abstractmethod
    def audit(self) -> dict[str, int]:
        """Returns the report of the state."""

    @abstractmethod
    def value(self, key: str) -> str | None:
        """Returns the value of a single key, in quotes as its line has it, or none for a missing one."""

    @abstractmethod
    def set_value(self, key: str, value: str) -> None:
        """Gives a single key a value."""


def _said(refusal: str | None) -> str:
    return "true" if refusal is None else f"false {refusal}"


def _number(found: int | None) -> str:
    return "-1" if found is None else str(int(found))


@dataclass(frozen=True)
class Load:
    """The tasks of a run: those of the setup phase, of each client, and the final reads."""
    setup: list[str]
    clients: dict[int, list[str]]
    reads: list[str]


def read_tasks(lines: Iterable[str]) -> dict[int, list[str]]:
    """Returns the lines of each client, from lines `CLIENT LINE`; client 0 has the setup phase."""
    tasks: dict[int, list[str]] = {}
    for line in lines:
        client, _, task = line.rstrip("\n").partition(" ")
        tasks.setdefault(int(client), []).append(task)
    return tasks


def final_reads(items: int) -> list[str]:
    """Returns reads whose replies show the whole state: every bill, every item, and the report."""
    lines = ["audit", *(f"bill {customer}" for customer in range(1, items + 1))]
    return lines + [f"{column} {kind} {item}" for item in range(1, items + 1) for kind in KINDS
                    for column in ("free", "price")]


def draw(program: str, options: dict[str, int], items: int) -> Load:
    """Returns the tasks that `vacation tasks` draws over some items of each kind."""
    words = [program, "tasks", "--items", str(items)]
    for name, value in options.items():
        words += [f"--{name}", str(value)]
    done = subprocess.run(words, check=True, capture_output=True, text=True, timeout=PATIENCE)
    tasks = read_tasks(done.stdout.splitlines())
    return Load(tasks.pop(0, []), dict(sorted(tasks.items())), final_reads(items))


def draw_keys(clients: int, tasks: int, reads: int, seed: int) -> Load:
    """Returns drawn operations on single keys, which have no value at first. The other operations are puts and
    comparisons, with even odds."""
    drawn = Random(f"keys {seed}")

    def line() -> str:
        key = drawn.choice(KEYS)
        if drawn.randrange(100) < reads:
            return f"get {key}"
        if drawn.random() < 0.5:
            return f"put {key} {drawn.choice(VALUES)}"
        return " ".join(["cas", key, *drawn.sample(VALUES, 2)])

    lines = {client: [line() for _ in range(tasks)] for client in range(1, clients + 1)}
    return Load([], lines, [f"get {key}" for key in KEYS])
