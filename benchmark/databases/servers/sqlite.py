"""SQLite: a file that all clients open, by the standard library's module."""

import sqlite3

from harness.database import LYING, Database, Setting, kept, less, wrong
from harness.outcomes import Damaged, Lost, Refused
from harness.sql import Connection

SYNCHRONOUS = "https://www.sqlite.org/pragma.html#pragma_synchronous"
JOURNAL = "https://www.sqlite.org/pragma.html#pragma_journal_mode"
ATOMIC = "https://www.sqlite.org/atomiccommit.html"
# How long a transaction waits for the one that writes, in seconds.
PATIENCE = 5


class SqliteConnection(Connection):
    """A connection without transactions of the module's own making."""

    def __init__(self, file: str, statements: tuple[str, ...]):
        try:
            self._connection = sqlite3.connect(file, timeout=PATIENCE, isolation_level=None)
            for statement in statements:
                self._connection.execute(statement)
        except sqlite3.DatabaseError as error:
            raise _sorted(error, Lost) from error

    def run(self, statement: str, values: dict) -> tuple[list[tuple], int]:
        try:
            cursor = self._connection.execute(statement, values)
            return cursor.fetchall(), cursor.rowcount
        except sqlite3.DatabaseError as error:
            raise _sorted(error, Refused) from error

    def begin(self) -> None:
        """Begins a transaction that may write: one that read first would be refused to write if another had
        written since."""
        self.run("BEGIN IMMEDIATE", {})

    def begin_read(self) -> None:
        """Begins a transaction that sees one snapshot, and waits for no other in the journal mode WAL."""
        self.run("BEGIN", {})

    def rollback(self) -> None:
        if self._connection.in_transaction:
            self.run("ROLLBACK", {})

    def close(self) -> None:
        self._connection.close()


def _sorted(error: sqlite3.DatabaseError, if_busy: type[Exception]) -> Exception:
    """Returns what an error means."""
    text = str(error)
    if "locked" in text or "busy" in text or isinstance(error, sqlite3.IntegrityError):
        return if_busy(text)
    # Errors of the disk come as operational errors, as do those of a file system that lost its power.
    return Lost(text) if isinstance(error, sqlite3.OperationalError) else Damaged(text)


def pragmas(journal: str, synchronous: str) -> tuple[str, ...]:
    """Returns the statements that a connection begins with."""
    return (f"PRAGMA journal_mode = {journal}", f"PRAGMA synchronous = {synchronous}")


class Sqlite(Database):
    """SQLite by journal mode and synchronous setting."""
    is_embedded = True
    settings = {
        "wal-full": Setting(kept(SYNCHRONOUS, "kill", "power", "none", "pause"), session=pragmas("wal", "full")),
        "wal-normal": Setting(kept(SYNCHRONOUS, "kill") | less(SYNCHRONOUS, "power"),
                              session=pragmas("wal", "normal")),
        "delete-extra": Setting(kept(SYNCHRONOUS, "kill", "power"), session=pragmas("delete", "extra")),
        "delete-full": Setting(kept(ATOMIC, "kill") | less(SYNCHRONOUS, "power"),
                               session=pragmas("delete", "full")),
        "delete-off": Setting(kept(SYNCHRONOUS, "kill") | less(SYNCHRONOUS, "power"),
                              session=pragmas("delete", "off")),
        "memory-off": Setting(less(JOURNAL, "kill", "power"), session=pragmas("memory", "off")),
        "lie": Setting(wrong("fsync does nothing", "power"), session=pragmas("wal", "full"), environment=LYING),
    }

    def version(self) -> str:
        return sqlite3.sqlite_version

    def connect(self, addresses, setting: Setting) -> Connection:
        return SqliteConnection(str(addresses[0].folder / "vacation.db"), setting.session)


DATABASE = Sqlite()
