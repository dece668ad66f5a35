"""PostgreSQL: one server, or a primary with a standby by streaming replication."""

from collections.abc import Sequence
from pathlib import Path

from harness.database import LYING, Address, Database, Node, Setting, kept, less, program, version_of, wrong
from harness.outcomes import Lost, Refused
from harness.processes import run_as
from harness.sql import Connection, DriverConnection, ask

MANUAL = "https://www.postgresql.org/docs/15/"
ISOLATION = f"{MANUAL}transaction-iso.html"
RELIABILITY = f"{MANUAL}wal-reliability.html"
ASYNCHRONOUS = f"{MANUAL}wal-async-commit.html"
STANDBY = f"{MANUAL}warm-standby.html#SYNCHRONOUS-REPLICATION"
# Debian's folders, the newest first, and how long a program that prepares a folder may run, in seconds.
FOLDERS, PATIENCE = sorted(map(str, Path("/usr/lib/postgresql").glob("*/bin")), reverse=True), 60
# Tables so small would be read whole, and a transaction that has read a table whole meets all that write to it.
ARGUMENTS = {"listen_addresses": "*", "unix_socket_directories": "", "enable_seqscan": "off",
             "deadlock_timeout": "20ms", "max_connections": "40", "shared_buffers": "32MB",
             "recovery_init_sync_method": "syncfs"}
# States of SQL by their beginning: a serialization failure, a deadlock, a lock that is not granted, and keys that
# another transaction has made meanwhile; then a server that shuts down, and one that only reads and did nothing.
REFUSALS, LOSSES = ("40001", "40P01", "55P03", "23"), ("57P", "25006")


class PostgresqlConnection(DriverConnection):
    """A connection of psycopg2, which leaves transactions to the statements that are run."""

    def __init__(self, addresses: Sequence[Address], setting: Setting, wanted: str = "any"):
        import psycopg2  # (a standby has no SERIALIZABLE)
        isolation = setting.options.get("isolation", "SERIALIZABLE") if wanted != "any" else "REPEATABLE READ"
        self._begin, self._reads = f"BEGIN ISOLATION LEVEL {isolation}", setting.options.get("reads", "")
        try:
            connection = psycopg2.connect(
                host=",".join(address.host for address in addresses), user="postgres", dbname="postgres",
                port=",".join(str(address.port) for address in addresses), connect_timeout=3,
                target_session_attrs=wanted)
        except psycopg2.OperationalError as error:
            raise Lost(f"no connection: {error}") from error
        connection.autocommit = True
        super().__init__(connection, psycopg2.Error)

    def meaning(self, error: Exception) -> Exception:
        if error.pgcode and error.pgcode.startswith(REFUSALS):
            return Refused(str(error))
        return Lost(str(error)) if not error.pgcode or error.pgcode.startswith(LOSSES) else error

    def begin(self) -> None:
        self.run(self._begin, {})

    def begin_read(self) -> None:
        self.run(self._begin + self._reads, {})


def standby(level: str, promises: dict, **more) -> Setting:
    """Returns a setting with a standby, for whose confirmations commits wait as the level says."""
    return Setting(promises, {"synchronous_standby_names": "*", "synchronous_commit": level}, nodes=2, **more)


class Postgresql(Database):
    """PostgreSQL by isolation, durability and replication."""
    packages, modules, user = ("postgresql", "python3-psycopg2"), ("psycopg2",), "postgres"
    settings = {
        "serializable": Setting(kept(RELIABILITY, "kill", "power") | kept(ISOLATION, "cut", "terminate", "pause")),
        "deferrable": Setting(kept(ISOLATION, "kill", "none"), options={"reads": " READ ONLY DEFERRABLE"}),
        "repeatable-read": Setting(less(ISOLATION, "none", "kill"), options={"isolation": "REPEATABLE READ"}),
        "read-committed": Setting(less(ISOLATION, "none", "kill"), options={"isolation": "READ COMMITTED"}),
        "commit-off": Setting(less(ASYNCHRONOUS, "kill", "power"), {"synchronous_commit": "off"}),
        "fsync-off": Setting(kept(RELIABILITY, "kill") | less(RELIABILITY, "power"), {"fsync": "off"}),
        "lie": Setting(wrong("fsync does nothing", "power"), environment=LYING),
        "async": Setting(less(STANDBY, "failover") | kept(ISOLATION, "partition"), nodes=2),
        "sync": standby("on", kept(STANDBY, "failover", "partition") | less(STANDBY, "failover-terminate")),
        "remote-apply": standby("remote_apply", kept(STANDBY, "failover")),
        "async-reads": Setting(less(STANDBY, "none"), nodes=2, reads_from_standby=True),
        "sync-reads": standby("on", less(STANDBY, "none"), reads_from_standby=True),
        "apply-reads": standby("remote_apply", less(STANDBY, "none"), reads_from_standby=True),
    }

    def version(self) -> str:
        return version_of(program("postgres", *FOLDERS), "--version")

    def install(self, node: Node) -> None:
        run_as(self.user, [program("initdb", *FOLDERS), "--pgdata", str(node.folder), "--username", "postgres",
                           "--auth", "trust", "--encoding", "UTF8", "--locale", "C", "--no-sync"], PATIENCE)

    def join(self, node: Node) -> None:
        run_as(self.user, [program("pg_basebackup", *FOLDERS), "-h", node.source.host, "-p", str(node.source.port),
                           "-U", "postgres", "-D", str(node.folder), "-R", "-c", "fast"], PATIENCE)

    def command(self, node: Node) -> list[str]:
        arguments = ARGUMENTS | ({} if node.source else dict(node.setting.arguments))
        return [program("postgres", *FOLDERS), "-D", str(node.folder), "-p", str(node.port),
                *(word for name, value in arguments.items() for word in ("-c", f"{name}={value}"))]

    def ready(self, node: Node) -> bool:
        return bool(self._ask(node, "SELECT 1"))

    def settled(self, nodes: Sequence[Node]) -> bool:
        return len(nodes) < 2 or self._ask(nodes[0], "SELECT state FROM pg_stat_replication") == [("streaming",)]

    def connect(self, addresses: Sequence[Address], setting: Setting) -> Connection:
        return PostgresqlConnection(addresses, setting, "read-write")

    def connect_for_reads(self, address: Address, setting: Setting) -> Connection:
        return PostgresqlConnection([address], setting)

    def terminate(self, node: Node) -> int:
        return sum(ended for ended, in self._ask(  # (first those that wait for a standby)
            node, "SELECT pg_terminate_backend(pid) FROM pg_stat_activity WHERE backend_type = 'client backend'"
                  " AND pid <> pg_backend_pid() ORDER BY wait_event <> 'SyncRep' LIMIT 2"))

    def promote(self, node: Node) -> None:
        self._ask(node, "SELECT pg_promote(true, 30)")

    def _ask(self, node: Node, statement: str) -> list[tuple]:
        return ask(lambda: PostgresqlConnection([node.address], node.setting), statement)


DATABASE = Postgresql()
