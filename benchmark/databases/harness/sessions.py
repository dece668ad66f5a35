"""One client's connection as its process uses it: a task is one transaction, in SQL or over keys and values."""

import random
import time
from abc import ABC, abstractmethod
from collections.abc import Callable, Sequence

from harness.database import Address, Database, Setting
from harness.keyvalue import KeyValueRules, Store
from harness.outcomes import Lost, Refused, Unknown
from harness.sql import Connection, SqlRules, TABLES
from harness.tasks import is_read

# Longest pause of a task that is split on purpose between its two transactions, in seconds.
MIDWAY_PAUSE = 0.004


class Session(ABC):
    """A connection that runs tasks. Each call may raise `Refused`, `Lost`, `Unknown` or `Damaged`; a task that
    only reads has no token, and is never unknown. `Unknown` has the reply, which is known before the commit.
    `before_commit` is called immediately before the request that may take effect: a client that is killed
    earlier has certainly left no effect."""

    before_commit: Callable[[], None] = staticmethod(lambda: None)

    @abstractmethod
    def call(self, line: str, token: str | None) -> str:
        """Runs a task as one transaction and returns its reply. With a token, the reply is stored under the
        token in the same transaction; if a task was committed under the token before, its reply is
        returned."""

    @abstractmethod
    def outcome(self, token: str) -> str | None:
        """Returns the reply of the task that committed under a token, or none if none did. Then none will:
        the token is stored by the query itself."""

    @abstractmethod
    def close(self) -> None:
        """Closes the connection."""


class SqlSession(Session):
    """A session over a connection with SQL. With `is_split`, tasks of several commands are two transactions,
    which is wrong on purpose."""

    def __init__(self, connection: Connection, is_split: bool = False):
        self._connection = connection
        self._rules = SqlRules(connection, midway=self._commit_midway) if is_split else SqlRules(connection)

    def call(self, line: str, token: str | None) -> str:
        try:
            reply, is_known = self._run(line, token)
        except Refused:
            self._connection.rollback()
            raise
        if is_known:
            self._connection.rollback()
        else:
            self._commit(is_read(line), reply)
        return reply

    def _run(self, line: str, token: str | None) -> tuple[str, bool]:
        """Runs a task up to its commit, and returns its reply and whether an earlier try had committed."""
        if is_read(line):
            self._connection.begin_read()
        else:
            self._connection.begin()
        known = None if token is None else self._stored(token)
        if known is not None:
            return known, True
        reply = self._rules.reply(line)
        if token is not None:
            self._store(token, reply)
        return reply, False

    def _commit(self, has_no_effect: bool, reply: str) -> None:
        self.before_commit()
        try:
            self._connection.commit()
        except Refused:
            self._connection.rollback()
            raise
        except Lost as lost:
            if has_no_effect:
                raise
            raise Unknown(str(lost), reply) from lost

    def outcome(self, token: str) -> str | None:
        self._connection.begin()
        try:
            found = self._stored(token)
            if found is None:
                self._store(token, "")
            self._connection.commit()
        except Refused:
            self._connection.rollback()
            raise
        return found or None

    def _stored(self, token: str) -> str | None:
        rows, _ = self._connection.run("SELECT reply FROM tokens WHERE token = :token", {"token": token})
        return rows[0][0] if rows else None

    def _store(self, token: str, reply: str) -> None:
        self._connection.run("INSERT INTO tokens (token, reply) VALUES (:token, :reply)",
                             {"token": token, "reply": reply})

    def _commit_midway(self) -> None:
        self._connection.commit()
        time.sleep(random.uniform(0, MIDWAY_PAUSE))
        self._connection.begin()

    def close(self) -> None:
        self._connection.close()


class StoreSession(Session):
    """A session over a store of keys and values; `is_split` as for SQL."""

    def __init__(self, store: Store, is_split: bool = False):
        self._store = store
        self._is_split = is_split

    def call(self, line: str, token: str | None) -> str:
        rules = KeyValueRules(self._store)
        if self._is_split:
            rules = KeyValueRules(self._store, lambda: self._commit_midway(rules))
        try:
            known = None if token is None else rules.get(f"t/{token}")
            if known is not None:
                self._store.abandon()
                return known
            reply = rules.reply(line)
            if token is not None:
                rules.put(f"t/{token}", reply)
        except Refused:
            self._store.abandon()
            raise
        self._commit(rules.changes(), reply)
        return reply

    def _commit(self, changes: dict[str, str | None], reply: str) -> None:
        self.before_commit()
        try:
            self._store.commit(changes)
        except Unknown as unknown:
            if changes:
                raise Unknown(str(unknown), reply) from unknown
            raise Lost(str(unknown)) from unknown

    def outcome(self, token: str) -> str | None:
        found = self._store.get(f"t/{token}")
        if found is None:
            self._store.commit({f"t/{token}": ""})
        else:
            self._store.abandon()
        return found or None

    def _commit_midway(self, rules: KeyValueRules) -> None:
        self._store.commit(rules.changes())
        rules.restart()
        time.sleep(random.uniform(0, MIDWAY_PAUSE))

    def close(self) -> None:
        self._store.close()


class ReadsElsewhere(Session):
    """Sends the tasks that only read to a second session, which is connected to a standby."""

    def __init__(self, writes: Session, reads: Session):
        self._writes, self._reads = writes, reads

    def call(self, line: str, token: str | None) -> str:
        self._writes.before_commit = self.before_commit
        if is_read(line):
            return self._reads.call(line, token)
        return self._writes.call(line, token)

    def outcome(self, token: str) -> str | None:
        return self._writes.outcome(token)

    def close(self) -> None:
        self._writes.close()
        self._reads.close()


def over(connection: Connection | Store, is_split: bool) -> Session:
    """Returns a session over what a database file connects."""
    return (StoreSession if isinstance(connection, Store) else SqlSession)(connection, is_split)


def open_session(database: Database, setting: Setting, addresses: Sequence[Address], number: int,
                 is_split: bool = False) -> Session:
    """Connects client `number`. Of nodes that all accept writes, client k prefers node k. Client 0 is the
    harness itself, which sets the database up and reads the final state from its primary."""
    order = list(addresses)
    if database.has_equal_nodes:
        first = number % len(order)
        order = order[first:] + order[:first]
    session = over(database.connect(order, setting), is_split)
    if setting.reads_from_standby and number:
        reads = over(database.connect_for_reads(addresses[-1], setting), is_split)
        return ReadsElsewhere(session, reads)
    return session


def make_tables(database: Database, setting: Setting, addresses: Sequence[Address]) -> None:
    """Creates the tables of a database with SQL."""
    connection = database.connect(addresses, setting)
    try:
        if isinstance(connection, Connection):
            for statement in TABLES:
                connection.run(statement, {})
    finally:
        connection.close()
