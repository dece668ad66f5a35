"""The rules of docs/RULES.md, section 1, in SQL: a task is one transaction over a `Connection`, which is how a
statement is run and what the database's errors mean. The statements are those that SQLite, PostgreSQL and
MariaDB have in common."""

import re
from abc import ABC, abstractmethod
from collections.abc import Callable

from harness.outcomes import Lost, Refused
from harness.tasks import KINDS, MOST_TOTAL, MOST_UNITS, REPORTED, Rules

# No foreign keys: that a booking has its customer and its item rests on the transactions alone, so that a
# history shows what these leave. The last tables have the reply of each task that committed under a token, and
# the single keys of the other workload.
TABLES = (
    """CREATE TABLE IF NOT EXISTS items (
        kind VARCHAR(8) NOT NULL, id BIGINT NOT NULL,
        used BIGINT NOT NULL, free BIGINT NOT NULL, price BIGINT NOT NULL,
        PRIMARY KEY (kind, id))""",
    "CREATE TABLE IF NOT EXISTS customers (id BIGINT PRIMARY KEY)",
    """CREATE TABLE IF NOT EXISTS bookings (
        customer BIGINT NOT NULL, kind VARCHAR(8) NOT NULL, item BIGINT NOT NULL,
        units BIGINT NOT NULL, cost BIGINT NOT NULL,
        PRIMARY KEY (customer, kind, item))""",
    "CREATE TABLE IF NOT EXISTS tokens (token VARCHAR(40) PRIMARY KEY, reply VARCHAR(2000) NOT NULL)",
    "CREATE TABLE IF NOT EXISTS pairs (name VARCHAR(40) PRIMARY KEY, content VARCHAR(40) NOT NULL)",
)

# Parts of the rules: the rows that a command names.
ITEM = "FROM items WHERE kind = :kind AND id = :item"
CUSTOMER = "FROM customers WHERE id = :customer"
BOOKINGS = "FROM bookings WHERE customer = :customer"
BOOKING = f"{BOOKINGS} AND kind = :kind AND item = :item"
SIZE = " + ".join(f"(SELECT count(*) FROM {name})" for name in ("items", "customers", "bookings"))

AUDIT = "SELECT " + ", ".join(
    [f"(SELECT count(*) FROM items WHERE kind = '{kind}') AS {kind}s" for kind in KINDS]
    + ["(SELECT count(*) FROM customers) AS customers",
       "(SELECT coalesce(sum(units), 0) FROM bookings) AS bookings",
       "(SELECT coalesce(sum(used), 0) FROM items) AS used",
       "(SELECT coalesce(sum(free), 0) FROM items) AS free",
       "(SELECT coalesce(sum(used + free), 0) FROM items) AS total",
       "(SELECT coalesce(sum(cost), 0) FROM bookings) AS billed"])


class Connection(ABC):
    """One client's connection to a database with SQL. Each call may raise `Refused` (the transaction must be
    rolled back), `Lost` (the connection has ended) or `Damaged`. A commit that raises `Lost` is taken for
    unknown; one that certainly did nothing raises `Refused`."""

    @abstractmethod
    def run(self, statement: str, values: dict) -> tuple[list[tuple], int]:
        """Runs a statement with values for its names `:name`, and returns its rows and how many rows it
        changed, or matched."""

    @abstractmethod
    def begin(self) -> None:
        """Begins a transaction."""

    def begin_read(self) -> None:
        """Begins a transaction that only reads."""
        self.begin()

    def commit(self) -> None:
        """Ends the transaction: it takes effect."""
        self.run("COMMIT", {})

    def rollback(self) -> None:
        """Ends the transaction: it does not take effect."""
        self.run("ROLLBACK", {})

    @abstractmethod
    def close(self) -> None:
        """Closes the connection."""


class DriverConnection(Connection):
    """A connection of a driver with cursors and names `%(name)s`, whose errors are of one class."""

    def __init__(self, connection, errors: type[Exception]):
        self._connection, self._errors = connection, errors
        self._cursor = connection.cursor()

    @abstractmethod
    def meaning(self, error: Exception) -> Exception:
        """Returns `Refused`, `Lost` or `Damaged` for an error of the driver, or the error itself."""

    def run(self, statement: str, values: dict) -> tuple[list[tuple], int]:
        try:
            self._cursor.execute(re.sub(r":(\w+)", r"%(\1)s", statement), values or None)
            rows = list(self._cursor.fetchall()) if self._cursor.description else []
            return rows, self._cursor.rowcount
        except self._errors as error:
            raise self.meaning(error) from error

    def close(self) -> None:
        self._connection.close()


def ask(connect: Callable[[], Connection], statement: str) -> list[tuple]:
    """Returns the rows of a statement on a connection of its own, or none if the server does not answer."""
    try:
        connection = connect()
    except (Lost, Refused):
        return []
    try:
        return connection.run(statement, {})[0]
    except (Lost, Refused):
        return []
    finally:
        connection.close()


class SqlRules(Rules):
    """The rules within a connection's transaction. Refusals are asked for in the order of the rules, by one
    query. With no number of blocks no entry is refused for want of room."""

    def __init__(self, connection: Connection, blocks: int | None = None,
                 midway: Callable[[], None] = lambda: None):
        super().__init__(midway)
        self._connection = connection
        self._blocks = blocks
        self._full = "1 = 0" if blocks is None else f"{SIZE} >= :blocks"

    def add(self, kind: str, item: int, num: int, price: int | None) -> str | None:
        values = {"kind": kind, "item": item, "num": num, "price": price}
        refusal = self._refusal(
            f"WHEN NOT EXISTS (SELECT 1 {ITEM}) AND (:num = 0 OR :price IS NULL)"
            f" THEN 'needs-count-and-price'"
            f" WHEN (SELECT used + free {ITEM}) + :num > {MOST_TOTAL} THEN 'total-limit'"
            f" WHEN NOT EXISTS (SELECT 1 {ITEM}) AND {self._full} THEN 'full'", values)
        if refusal is None and not self._changed(
                "UPDATE items SET free = free + :num, price = coalesce(:price, price)"
                " WHERE kind = :kind AND id = :item", values):
            self._changed("INSERT INTO items (kind, id, used, free, price)"
                          " VALUES (:kind, :item, 0, :num, :price)", values)
        return refusal

    def delete(self, kind: str, item: int, num: int) -> str | None:
        values = {"kind": kind, "item": item, "num": num}
        refusal = self._refusal(
            f"WHEN NOT EXISTS (SELECT 1 {ITEM}) THEN 'no-item'"
            f" WHEN (SELECT free {ITEM}) < :num THEN 'not-free'", values)
        if refusal is None:
            self._changed("UPDATE items SET free = free - :num WHERE kind = :kind AND id = :item", values)
            self._changed(f"DELETE {ITEM} AND used + free = 0", values)
        return refusal

    def drop_flight(self, item: int) -> str | None:
        values = {"kind": "flight", "item": item}
        refusal = self._refusal(
            f"WHEN NOT EXISTS (SELECT 1 {ITEM}) THEN 'no-item'"
            f" WHEN (SELECT used {ITEM}) > 0 THEN 'in-use'", values)
        if refusal is None:
            self._changed(f"DELETE {ITEM}", values)
        return refusal

    def new_customer(self, customer: int) -> str | None:
        values = {"customer": customer}
        refusal = self._refusal(
            f"WHEN EXISTS (SELECT 1 {CUSTOMER}) THEN 'exists' WHEN {self._full} THEN 'full'", values)
        if refusal is None:
            self._changed("INSERT INTO customers (id) VALUES (:customer)", values)
        return refusal

    def drop_customer(self, customer: int) -> str | None:
        values = {"customer": customer}
        refusal = self._refusal(f"WHEN NOT EXISTS (SELECT 1 {CUSTOMER}) THEN 'no-customer'", values)
        if refusal is None:
            self._give_back("", values)
            self._changed(f"DELETE {CUSTOMER}", values)
        return refusal

    def reserve(self, customer: int, kind: str, item: int, units: int = 1) -> str | None:
        values = {"customer": customer, "kind": kind, "item": item, "units": units}
        refusal = self._refusal(
            f"WHEN NOT EXISTS (SELECT 1 {CUSTOMER}) THEN 'no-customer'"
            f" WHEN NOT EXISTS (SELECT 1 {ITEM}) THEN 'no-item'"
            f" WHEN (SELECT free {ITEM}) < :units THEN 'sold-out'"
            f" WHEN (SELECT units {BOOKING}) + :units > {MOST_UNITS} THEN 'unit-limit'"
            f" WHEN NOT EXISTS (SELECT 1 {BOOKING}) AND {self._full} THEN 'full'", values)
        if refusal is None:
            self._book(values)
        return refusal

    def cancel(self, customer: int, kind: str, item: int) -> str | None:
        values = {"customer": customer, "kind": kind, "item": item}
        refusal = self._refusal(
            f"WHEN NOT EXISTS (SELECT 1 {CUSTOMER}) THEN 'no-customer'"
            f" WHEN NOT EXISTS (SELECT 1 {ITEM}) THEN 'no-item'"
            f" WHEN NOT EXISTS (SELECT 1 {BOOKING}) THEN 'not-booked'", values)
        if refusal is None:
            self._give_back("AND kind = :kind AND item = :item", values)
        return refusal

    def read(self, column: str, kind: str, item: int) -> int | None:
        return self._value(f"SELECT {column} {ITEM}", kind=kind, item=item)

    def bill(self, customer: int) -> int | None:
        return self._value(f"SELECT (SELECT coalesce(sum(cost), 0) {BOOKINGS}) {CUSTOMER}",
                           customer=customer)

    def picks(self, asks: list[tuple[str, int]]) -> dict[str, int]:
        values = {f"kind{place}": kind for place, (kind, _) in enumerate(asks)}
        values |= {f"item{place}": item for place, (_, item) in enumerate(asks)}
        rows = ", ".join(f"({place}, :kind{place}, :item{place})" for place in range(len(asks)))
        found, _ = self._connection.run(
            f"WITH asks (place, kind, item) AS (VALUES {rows}) SELECT kind, item FROM ("
            "SELECT asks.kind, asks.item, row_number() OVER ("
            "PARTITION BY asks.kind ORDER BY items.price DESC, asks.place) AS position"
            " FROM asks JOIN items ON items.kind = asks.kind AND items.id = asks.item) AS ranked"
            " WHERE position = 1", values)
        return dict(found)

    def audit(self) -> dict[str, int]:
        rows, _ = self._connection.run(AUDIT, {})
        return dict(zip(REPORTED, rows[0]))

    def value(self, key: str) -> str | None:
        return self._value("SELECT content FROM pairs WHERE name = :name", name=key)

    def set_value(self, key: str, value: str) -> None:
        values = {"name": key, "content": value}
        if not self._changed("UPDATE pairs SET content = :content WHERE name = :name", values):
            self._changed("INSERT INTO pairs (name, content) VALUES (:name, :content)", values)

    def _book(self, values: dict) -> None:
        """Moves units of an item to a booking, which is made unless it is there."""
        self._changed("UPDATE items SET used = used + :units, free = free - :units"
                      " WHERE kind = :kind AND id = :item", values)
        if not self._changed(f"UPDATE bookings SET units = units + :units, cost = cost + :units * (SELECT price {ITEM})"
                             " WHERE customer = :customer AND kind = :kind AND item = :item", values):
            self._changed("INSERT INTO bookings (customer, kind, item, units, cost)"
                          f" SELECT :customer, kind, id, :units, :units * price {ITEM}", values)

    def _give_back(self, which: str, values: dict) -> None:
        """Gives the units of a customer's bookings back, of all or of those that a condition names, and takes
        the bookings away."""
        booked, _ = self._connection.run(f"SELECT kind, item, units {BOOKINGS} {which}", values)
        for kind, item, units in booked:
            self._changed("UPDATE items SET used = used - :units, free = free + :units"
                          " WHERE kind = :kind AND id = :item", {"kind": kind, "item": item, "units": units})
        self._changed(f"DELETE {BOOKINGS} {which}", values)

    def _refusal(self, cases: str, values: dict) -> str | None:
        return self._value(f"SELECT CASE {cases} END", **values)

    def _value(self, statement: str, **values) -> object:
        """Returns the first column of the first row, or none if there is no row."""
        rows, _ = self._connection.run(statement, values | {"blocks": self._blocks})
        return rows[0][0] if rows else None

    def _changed(self, statement: str, values: dict) -> int:
        """Returns how many rows a statement changed."""
        _, count = self._connection.run(statement, values)
        return count
