"""MariaDB with InnoDB: one server."""

import re
from collections.abc import Sequence

from harness.database import (
    LYING, Address, Database, Node, Setting, first_that_answers, kept, less, program, version_of, wrong)
from harness.outcomes import Lost, Refused
from harness.processes import run_as
from harness.sql import Connection, DriverConnection, ask

MANUAL = "https://mariadb.com/kb/en/"
ISOLATION = f"{MANUAL}set-transaction/#serializable"
FLUSH = f"{MANUAL}innodb-system-variables/#innodb_flush_log_at_trx_commit"
# How long the program that prepares a folder may run, in seconds.
PATIENCE = 60
# Errors after which the transaction was rolled back, or the statement refused: a deadlock, a lock that is not
# granted, a record that has changed, a failed certification of a commit; a key that is there, a value that is none;
# a session to be ended that has ended.
REFUSALS = {1213, 1205, 1020, 1180, 1062, 1048, 1094}
# Errors of a connection that has ended, or of a server that shuts down or has lost the others.
LOSSES = {0, 1047, 1053, 1152, 1158, 1159, 1160, 1161, 1184, 1317, 1927, 2002, 2003, 2006, 2013, 2014, 2055}
ARGUMENTS = {"bind-address": "0.0.0.0", "innodb-buffer-pool-size": "32M", "innodb-log-file-size": "16M",
             "innodb-lock-wait-timeout": "2", "innodb-rollback-on-timeout": "ON", "skip-name-resolve": "ON",
             "character-set-server": "latin1", "skip-grant-tables": "ON"}


class MariadbConnection(DriverConnection):
    """A connection of PyMySQL, which leaves transactions to the statements that are run."""

    def __init__(self, address: Address, setting: Setting):
        import pymysql
        try:
            connection = pymysql.connect(
                host=address.host, port=address.port, user="root", database="test", autocommit=True,
                connect_timeout=3, read_timeout=15, write_timeout=15,
                client_flag=pymysql.constants.CLIENT.FOUND_ROWS)
        except (pymysql.MySQLError, OSError) as error:
            raise Lost(f"no connection: {error}") from error
        super().__init__(connection, (pymysql.MySQLError, OSError))
        for statement in setting.session:
            self.run(statement, {})

    def meaning(self, error: Exception) -> Exception:
        number = error.args[0] if error.args and isinstance(error.args[0], int) else 0
        if number in REFUSALS:
            return Refused(str(error))
        return Lost(str(error)) if number in LOSSES or isinstance(error, OSError) else error

    def run(self, statement: str, values: dict) -> tuple[list[tuple], int]:
        return super().run(re.sub(r"^(CREATE TABLE .*)$", r"\1 ENGINE=InnoDB", statement, flags=re.S), values)

    def begin(self) -> None:
        self.run("START TRANSACTION", {})


def isolated(level: str, *more: str) -> tuple[str, ...]:
    """Returns the statements with which a session begins."""
    return (f"SET SESSION TRANSACTION ISOLATION LEVEL {level}", *more)


SERIALIZABLE = isolated("SERIALIZABLE")


class Mariadb(Database):
    """MariaDB by isolation and durability."""
    packages, modules = ("mariadb-server", "python3-pymysql"), ("pymysql",)
    programs, user = ("mariadb-install-db",), "mysql"
    settings = {
        "serializable": Setting(kept(FLUSH, "kill", "power") | kept(ISOLATION, "cut", "terminate", "pause"),
                                session=SERIALIZABLE),
        "repeatable-read": Setting(less(ISOLATION, "none", "kill"), session=isolated("REPEATABLE READ")),
        "snapshot": Setting(less(ISOLATION, "none"), session=isolated(
            "REPEATABLE READ", "SET SESSION innodb_snapshot_isolation = ON")),
        "flush-2": Setting(kept(FLUSH, "kill") | less(FLUSH, "power"),
                           {"innodb-flush-log-at-trx-commit": "2"}, SERIALIZABLE),
        "flush-0": Setting(less(FLUSH, "kill", "power"), {"innodb-flush-log-at-trx-commit": "0"}, SERIALIZABLE),
        "lie": Setting(wrong("fsync does nothing", "power"), session=SERIALIZABLE, environment=LYING),
    }

    def version(self) -> str:
        return version_of(program("mariadbd"), "--version")

    def install(self, node: Node) -> None:
        run_as(self.user, [program("mariadb-install-db"), "--no-defaults", f"--datadir={node.folder}",
                           "--auth-root-authentication-method=normal"], PATIENCE)

    def command(self, node: Node) -> list[str]:
        arguments = ARGUMENTS | dict(node.setting.arguments)
        return [program("mariadbd"), "--no-defaults", f"--datadir={node.folder}", f"--port={node.port}",
                f"--socket={node.folder}/socket", f"--pid-file={node.folder}/pid",
                *(f"--{name}={value}" for name, value in arguments.items())]

    def ready(self, node: Node) -> bool:
        return bool(self.ask(node, "SELECT 1"))

    def connect(self, addresses: Sequence[Address], setting: Setting) -> Connection:
        return first_that_answers(addresses, lambda address: MariadbConnection(address, setting))

    def terminate(self, node: Node) -> int:
        sessions = self.ask(node, "SELECT id FROM information_schema.processlist WHERE user = 'root'"
                                  " AND id <> connection_id() LIMIT 2")
        for (number,) in sessions:
            self.ask(node, f"KILL {number}")
        return len(sessions)

    def ask(self, node: Node, statement: str) -> list[tuple]:
        """Returns the rows of a statement, or none if the node does not answer."""
        return ask(lambda: MariadbConnection(node.address, node.setting), statement)


DATABASE = Mariadb()
