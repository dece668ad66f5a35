"""The rules of docs/RULES.md, section 1, over keys and values, for databases without SQL: a task is one
transaction over a `Store`.

An item is the value `USED FREE PRICE` of the key `i/KIND/ID`. A customer is the value of the key `c/ID`: `-`,
and then `KIND/ID UNITS COST` for each booking. A token's reply is the value of the key `t/TOKEN`, and a single
key of the other workload is the key `k/KEY`."""

from abc import ABC, abstractmethod
from collections.abc import Callable

from harness.tasks import MOST_TOTAL, MOST_UNITS, REPORTED, Rules

Item = tuple[int, int, int]
Bookings = dict[str, tuple[int, int]]
# First letters of the keys that `Store.scan` returns.
ENTITIES = ("i/", "c/")


class Store(ABC):
    """One client's connection to a database of keys and values. A transaction begins at the first read after a
    commit or an abandon. Each call may raise `Refused`, `Lost` or `Damaged`; a commit that may have taken
    effect raises `Unknown`."""

    @abstractmethod
    def get(self, key: str) -> str | None:
        """Returns the value of a key within the transaction, or none."""

    @abstractmethod
    def scan(self) -> dict[str, str]:
        """Returns all keys that begin with `i/` or `c/`, with their values, as one snapshot. A transaction
        that scans reads nothing else and changes nothing."""

    @abstractmethod
    def commit(self, changes: dict[str, str | None]) -> None:
        """Makes the changes (none deletes a key) if no key that was read has changed since, and ends the
        transaction; otherwise raises `Refused`."""

    def abandon(self) -> None:
        """Ends the transaction without a change."""

    @abstractmethod
    def close(self) -> None:
        """Closes the connection."""


class KeyValueRules(Rules):
    """The rules within one transaction of a store, whose changes are collected for its commit."""

    def __init__(self, store: Store, midway: Callable[[], None] = lambda: None):
        super().__init__(midway)
        self._store = store
        self._seen: dict[str, str | None] = {}
        self._written: dict[str, str | None] = {}

    def changes(self) -> dict[str, str | None]:
        """Returns the keys whose values differ from those that were read."""
        return {key: value for key, value in self._written.items() if self._seen.get(key) != value}

    def restart(self) -> None:
        """Forgets what was read and written, for another transaction."""
        self._seen, self._written = {}, {}

    def get(self, key: str) -> str | None:
        """Returns the value of a key as the task has left it so far."""
        if key in self._written:
            return self._written[key]
        if key not in self._seen:
            self._seen[key] = self._store.get(key)
        return self._seen[key]

    def put(self, key: str, value: str | None) -> None:
        """Changes the value of a key; none deletes the key."""
        self._written[key] = value

    def _item(self, kind: str, item: int | str) -> Item | None:
        text = self.get(f"i/{kind}/{item}")
        return None if text is None else tuple(map(int, text.split(" ")))

    def _put_item(self, kind: str, item: int | str, value: Item | None) -> None:
        self.put(f"i/{kind}/{item}", None if value is None else " ".join(map(str, value)))

    def _bookings(self, customer: int) -> Bookings | None:
        text = self.get(f"c/{customer}")
        return None if text is None else _read_bookings(text)

    def _put_bookings(self, customer: int, bookings: Bookings) -> None:
        words = [f"{key} {units} {cost}" for key, (units, cost) in sorted(bookings.items())]
        self.put(f"c/{customer}", " ".join(["-", *words]))

    def add(self, kind: str, item: int, num: int, price: int | None) -> str | None:
        found = self._item(kind, item)
        if found is None and (num == 0 or price is None):
            return "needs-count-and-price"
        used, free, old = found or (0, 0, 0)
        if used + free + num > MOST_TOTAL:
            return "total-limit"
        self._put_item(kind, item, (used, free + num, old if price is None else price))
        return None

    def delete(self, kind: str, item: int, num: int) -> str | None:
        found = self._item(kind, item)
        if found is None:
            return "no-item"
        used, free, price = found
        if free < num:
            return "not-free"
        self._put_item(kind, item, None if used + free == num else (used, free - num, price))
        return None

    def drop_flight(self, item: int) -> str | None:
        found = self._item("flight", item)
        if found is None:
            return "no-item"
        if found[0] > 0:
            return "in-use"
        self._put_item("flight", item, None)
        return None

    def new_customer(self, customer: int) -> str | None:
        if self._bookings(customer) is not None:
            return "exists"
        self._put_bookings(customer, {})
        return None

    def drop_customer(self, customer: int) -> str | None:
        bookings = self._bookings(customer)
        if bookings is None:
            return "no-customer"
        for key, (units, _) in bookings.items():
            self._give_back(key, units)
        self.put(f"c/{customer}", None)
        return None

    def reserve(self, customer: int, kind: str, item: int, units: int = 1) -> str | None:
        bookings = self._bookings(customer)
        if bookings is None:
            return "no-customer"
        found = self._item(kind, item)
        if found is None:
            return "no-item"
        used, free, price = found
        had, cost = bookings.get(f"{kind}/{item}", (0, 0))
        if free < units:
            return "sold-out"
        if had + units > MOST_UNITS:
            return "unit-limit"
        self._put_item(kind, item, (used + units, free - units, price))
        self._put_bookings(customer, bookings | {f"{kind}/{item}": (had + units, cost + units * price)})
        return None

    def cancel(self, customer: int, kind: str, item: int) -> str | None:
        bookings, key = self._bookings(customer), f"{kind}/{item}"
        if bookings is None:
            return "no-customer"
        if self._item(kind, item) is None:
            return "no-item"
        if key not in bookings:
            return "not-booked"
        self._give_back(key, bookings.pop(key)[0])
        self._put_bookings(customer, bookings)
        return None

    def read(self, column: str, kind: str, item: int) -> int | None:
        found = self._item(kind, item)
        return None if found is None else found[1 if column == "free" else 2]

    def bill(self, customer: int) -> int | None:
        bookings = self._bookings(customer)
        return None if bookings is None else sum(cost for _, cost in bookings.values())

    def picks(self, asks: list[tuple[str, int]]) -> dict[str, int]:
        best: dict[str, tuple[int, int]] = {}
        for kind, item in asks:
            found = self._item(kind, item)
            if found is not None and (kind not in best or found[2] > best[kind][1]):
                best[kind] = (item, found[2])
        return {kind: item for kind, (item, _) in best.items()}

    def audit(self) -> dict[str, int]:
        counts = dict.fromkeys(REPORTED, 0)
        for key, text in self._store.scan().items():
            if key.startswith("i/"):
                used, free, _ = map(int, text.split(" "))
                _count(counts, used=used, free=free, total=used + free, **{f"{key.split('/')[1]}s": 1})
            else:
                bookings = _read_bookings(text).values()
                _count(counts, customers=1, bookings=sum(units for units, _ in bookings),
                       billed=sum(cost for _, cost in bookings))
        return counts

    def value(self, key: str) -> str | None:
        return self.get(f"k/{key}")

    def set_value(self, key: str, value: str) -> None:
        self.put(f"k/{key}", value)

    def _give_back(self, key: str, units: int) -> None:
        """Gives units of a booking back to its item. The item of a booking may be missing only if the
        database let the two disagree."""
        kind, _, item = key.partition("/")
        found = self._item(kind, item)
        if found is not None:
            self._put_item(kind, item, (found[0] - units, found[1] + units, found[2]))


def _read_bookings(text: str) -> Bookings:
    words = text.split(" ")[1:]
    return {key: (int(units), int(cost)) for key, units, cost in zip(words[::3], words[1::3], words[2::3])}


def _count(counts: dict[str, int], **more: int) -> None:
    for name, number in more.items():
        counts[name] += number
