"""An executable model of the manager, written from docs/RULES.md and apart from the proved program.

A state is a map of rows, as a database would keep them: an item has (used, free, price), a customer has an
empty tuple, a booking has (units, cost). A task is a generator of *statements*; a statement is a function of a
`View` and sees one state. Run without interruption over one state, the statements give what the rules say. With
other transactions between them they give what weaker isolation levels allow (levels.py)."""

from __future__ import annotations

from collections.abc import Callable, Generator
from typing import Any, TypeAlias

from .tasks import KINDS, Item, Task

MOST_TOTAL = 1_000_000_000
MOST_UNITS = 10_000

Row: TypeAlias = tuple
State: TypeAlias = dict[Row, tuple]


def customer_row(customer: int) -> Row:
    return ("customer", customer)


def booking_row(customer: int, item: Item) -> Row:
    return ("booking", customer, *item)


def booked_item(row: Row) -> Item:
    """The item of a booking."""
    return row[2], row[3]


def is_item(row: Row) -> bool:
    return row[0] in KINDS


class View:
    """A state as a transaction sees it: the rows of some moment with the transaction's own writes. Records what
    is read; `("bookings", CUSTOMER)` stands for a read of all bookings of a customer."""

    def __init__(self, rows: State, own: State | None = None):
        self.rows, self.own = rows, own or {}
        self.reads: set[Row] = set()
        self.writes: dict[Row, tuple | None] = {}

    def get(self, row: Row) -> tuple | None:
        self.reads.add(row)
        for layer in (self.writes, self.own):
            if row in layer:
                return layer[row]
        return self.rows.get(row)

    def put(self, row: Row, value: tuple | None) -> None:
        self.writes[row] = value

    def current(self) -> State:
        """All rows as the transaction sees them."""
        return applied(self.rows, {**self.own, **self.writes})

    def bookings(self, customer: int) -> State:
        self.reads.add(("bookings", customer))
        return {row: value for row, value in self.current().items()
                if row[0] == "booking" and row[1] == customer}

    def lacks_room(self, blocks: int | None) -> bool:
        """Returns whether a new row finds no block; without a number of blocks it finds one."""
        return blocks is not None and len(self.current()) >= blocks


def applied(rows: State, writes: dict[Row, tuple | None]) -> State:
    """The rows after writes."""
    if not writes:
        return rows
    return {row: value for row, value in {**rows, **writes}.items() if value is not None}


Statement: TypeAlias = Callable[[View], Any]
Steps: TypeAlias = Generator[Statement, Any, Any]


class Rules:
    """The commands and tasks. Each command returns the name of its refusal, or none."""

    def __init__(self, blocks: int | None = None):
        self.blocks = blocks

    def reply(self, task: Task) -> Steps:
        """Runs a task, and returns the text of its reply."""
        match task.name:
            case "bill":
                return _number((yield from self.bill(task.customer)))
            case "leave":
                bill = yield from self.bill(task.customer)
                if bill is not None:
                    yield from self.drop_customer(task.customer)
                return _number(bill)
            case "free" | "price":
                item = yield lambda view: view.get(task.item)
                return _number(None if item is None else item[1 if task.name == "free" else 2])
            case "audit":
                return (yield _audit)
            case "trip":
                return (yield from self.trip(task))
            case "update":
                words = []
                for change in task.changes:
                    words.append((yield from self.command(change)) or "true")
                return " ".join(["update", *words])
        refusal = yield from self.command(task)
        return "true" if refusal is None else f"false {refusal}"

    def command(self, task: Task) -> Steps:
        match task.name:
            case "add":
                return (yield from self.add(task))
            case "del":
                return (yield from self.delete(task))
            case "newcust":
                return (yield from self.new_customer(task.customer))
            case "dropcust":
                return (yield from self.drop_customer(task.customer))
            case "reserve":
                return (yield from self.reserve(task.customer, task.item, task.number))
            case "cancel":
                return (yield from self.cancel(task.customer, task.item))
        raise ValueError(task.name)

    def add(self, task: Task) -> Steps:
        """Makes an item, or adds units to it and sets its price."""
        def check(view: View) -> str | None:
            item = view.get(task.item)
            if item is None and (task.number == 0 or task.price is None):
                return "needs-count-and-price"
            if item is not None and item[0] + item[1] + task.number > MOST_TOTAL:
                return "total-limit"
            return "full" if item is None and view.lacks_room(self.blocks) else None

        def change(view: View) -> None:
            used, free, price = view.get(task.item) or (0, 0, 0)
            view.put(task.item, (used, free + task.number, price if task.price is None else task.price))

        refusal = yield check
        if refusal is None and (task.number > 0 or task.price is not None):
            yield change
        return refusal

    def delete(self, task: Task) -> Steps:
        """Takes free units away, or a whole flight."""
        def check(view: View) -> str | None:
            item = view.get(task.item)
            if item is None:
                return "no-item"
            if task.number is None:
                return "in-use" if item[0] > 0 else None
            return "not-free" if item[1] < task.number else None

        def change(view: View) -> None:
            item = view.get(task.item)
            if item is not None:
                is_gone = task.number is None or item[0] + item[1] == task.number
                view.put(task.item, None if is_gone else (item[0], item[1] - task.number, item[2]))

        refusal = yield check
        if refusal is None:
            yield change
        return refusal

    def new_customer(self, customer: int) -> Steps:
        def check(view: View) -> str | None:
            if view.get(customer_row(customer)) is not None:
                return "exists"
            return "full" if view.lacks_room(self.blocks) else None

        refusal = yield check
        if refusal is None:
            yield lambda view: view.put(customer_row(customer), ())
        return refusal

    def drop_customer(self, customer: int) -> Steps:
        """Gives all units of a customer back; the customer goes."""
        def remove(view: View) -> None:
            for row in [*view.bookings(customer), customer_row(customer)]:
                view.put(row, None)

        refusal = yield lambda view: None if view.get(customer_row(customer)) is not None else "no-customer"
        if refusal is None:
            yield lambda view: _give_back(view, view.bookings(customer))
            yield remove
        return refusal

    def bill(self, customer: int) -> Steps:
        """The sum of the customer's bookings, or none for a missing customer."""
        def look(view: View) -> int | None:
            if view.get(customer_row(customer)) is None:
                return None
            return sum(cost for _, cost in view.bookings(customer).values())

        return (yield look)

    def reserve(self, customer: int, item: Item, units: int = 1) -> Steps:
        """Books units of an item at its price."""
        row = booking_row(customer, item)

        def check(view: View) -> str | None:
            if view.get(customer_row(customer)) is None:
                return "no-customer"
            found = view.get(item)
            if found is None:
                return "no-item"
            if found[1] < units:
                return "sold-out"
            had = view.get(row)
            if had is not None and had[0] + units > MOST_UNITS:
                return "unit-limit"
            return "full" if had is None and view.lacks_room(self.blocks) else None

        def take(view: View) -> None:
            found = view.get(item)
            if found is not None:
                view.put(item, (found[0] + units, found[1] - units, found[2]))

        def book(view: View) -> None:
            found = view.get(item)
            if found is not None:
                had = view.get(row) or (0, 0)
                view.put(row, (had[0] + units, had[1] + units * found[2]))

        refusal = yield check
        if refusal is None:
            yield take
            yield book
        return refusal

    def cancel(self, customer: int, item: Item) -> Steps:
        """Gives all units of a booking back; the booking goes."""
        row = booking_row(customer, item)

        def check(view: View) -> str | None:
            if view.get(customer_row(customer)) is None:
                return "no-customer"
            if view.get(item) is None:
                return "no-item"
            return "not-booked" if view.get(row) is None else None

        def remove(view: View) -> None:
            had = view.get(row)
            if had is not None:
                _give_back(view, {row: had})
                view.put(row, None)

        refusal = yield check
        if refusal is None:
            yield remove
        return refusal

    def trip(self, task: Task) -> Steps:
        """Picks the dearest item of each kind, the first of equal ones, and books one unit of each pick."""
        def look(view: View) -> dict[str, int]:
            best: dict[str, tuple[int, int]] = {}
            for kind, number in task.asks:
                item = view.get((kind, number))
                if item is not None and (kind not in best or item[2] > best[kind][1]):
                    best[kind] = (number, item[2])
            return {kind: number for kind, (number, _) in best.items()}

        picks = yield look
        customer = "-"
        if picks:
            customer = (yield from self.new_customer(task.customer)) or "true"
        words = ["trip", f"cust={customer}"]
        for kind in KINDS:
            if kind in picks:
                refusal = yield from self.reserve(task.customer, (kind, picks[kind]))
                words.append(f"{kind}={picks[kind]}:{refusal or 'true'}")
            else:
                words.append(f"{kind}=-")
        return " ".join(words)


def _number(found: int | None) -> str:
    return "-1" if found is None else str(found)


def _give_back(view: View, bookings: State) -> None:
    for row, (units, _) in bookings.items():
        found = view.get(booked_item(row))
        if found is not None:
            view.put(booked_item(row), (found[0] - units, found[1] + units, found[2]))


def _audit(view: View) -> str:
    """The report of the state."""
    rows = view.current()
    view.reads |= set(rows)
    items = {row: value for row, value in rows.items() if is_item(row)}
    bookings = [value for row, value in rows.items() if row[0] == "booking"]
    used, free = sum(value[0] for value in items.values()), sum(value[1] for value in items.values())
    counts = {f"{kind}s": sum(row[0] == kind for row in items) for kind in KINDS}
    counts |= {"customers": sum(row[0] == "customer" for row in rows),
               "bookings": sum(units for units, _ in bookings), "used": used, "free": free, "total": used + free,
               "billed": sum(cost for _, cost in bookings)}
    return " ".join(f"{name}={number}" for name, number in counts.items())


def transaction(rows: State, task: Task, blocks: int | None = None) -> tuple[str, View]:
    """Runs all statements of a task over the same rows. Returns the reply, and the view with what was read and
    written."""
    view = View(rows)
    steps = Rules(blocks).reply(task)
    try:
        statement = next(steps)
        while True:
            statement = steps.send(statement(view))
    except StopIteration as end:
        return end.value, view


def run(state: State, task: Task, blocks: int | None = None) -> tuple[str, State]:
    """The reply to a task, and the state after it."""
    reply, view = transaction(state, task, blocks)
    return reply, applied(state, view.writes)
