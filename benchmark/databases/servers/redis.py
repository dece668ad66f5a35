"""Redis: optimistic transactions with WATCH, MULTI and EXEC; one server, or a primary with a replica."""

from collections.abc import Sequence
from contextlib import suppress

from harness.database import LYING, Address, Database, Node, Setting, kept, less, program, version_of, wrong
from harness.keyvalue import Store
from harness.outcomes import Lost, Refused, Unknown, raising

TRANSACTIONS = "https://redis.io/docs/latest/develop/using-commands/transactions/"
PERSISTENCE = "https://redis.io/docs/latest/operate/oss_and_stack/management/persistence/"
REPLICATION = "https://redis.io/docs/latest/operate/oss_and_stack/management/replication/"
ALWAYS = {"appendonly": "yes", "appendfsync": "always"}
# All entities at one time, by a script, which nothing interrupts.
SCAN = """local keys = redis.call('KEYS', '[ic]/*')
return {keys, #keys > 0 and redis.call('MGET', unpack(keys)) or {}}"""
MOST_WAIT = 2000  # milliseconds for the confirmation of a replica; a promoted one has none to wait for


def connected(address: Address):
    """Returns a client that has one connection, and waits five seconds for a reply."""
    import redis
    return redis.Redis(address.host, address.port, socket_timeout=5, socket_connect_timeout=3,
                       decode_responses=True, max_connections=1)


class RedisStore(Store):
    """A store that watches each key it reads, unless the setting is wrong on purpose, and waits for some replicas."""

    def __init__(self, client, setting: Setting, replicas: int):
        import redis
        self._errors, self._client, self._pipe = redis.exceptions, client, client.pipeline()
        self._watches, self._replicas = setting.options.get("watch", True), replicas

    def get(self, key: str) -> str | None:
        with raising(Lost, self._errors.RedisError):
            if not self._watches:
                return self._client.get(key)
            self._pipe.watch(key)
            return self._pipe.get(key)

    def scan(self) -> dict[str, str]:
        with raising(Lost, self._errors.RedisError):
            return dict(zip(*self._client.eval(SCAN, 0)))

    def commit(self, changes: dict[str, str | None]) -> None:
        if not changes and not self._pipe.watching:
            return
        try:
            self._pipe.multi()
            for key, value in changes.items():
                self._pipe.delete(key) if value is None else self._pipe.set(key, value)
            self._pipe.execute()
            confirmed = self._client.wait(self._replicas, MOST_WAIT) if changes and self._replicas else 0
        except self._errors.WatchError as error:
            # The library reports a connection that ended during EXEC by the same class.
            raise (Refused if "changed" in str(error) else Unknown)(str(error)) from error
        except self._errors.RedisError as error:
            raise (Lost if isinstance(error, self._errors.ReadOnlyError) else Unknown)(str(error)) from error
        if changes and confirmed < self._replicas:
            raise Unknown(f"{confirmed} replicas have it")

    def abandon(self) -> None:
        self._pipe.reset()

    def close(self) -> None:
        self._client.connection_pool.disconnect()


class Redis(Database):
    """Redis by persistence and replication."""
    packages, modules, programs = ("redis-server", "python3-redis"), ("redis",), ("redis-server",)
    settings = {
        "always": Setting(kept(PERSISTENCE, "kill", "power") | kept(TRANSACTIONS, "cut", "terminate", "pause"),
                          ALWAYS),
        "everysec": Setting(less(PERSISTENCE, "power", "kill"), {"appendonly": "yes", "appendfsync": "everysec"}),
        "memory": Setting(kept(TRANSACTIONS, "none", "cut") | less(PERSISTENCE, "kill")),
        "no-watch": Setting(wrong("reads are not watched", "none"), options={"watch": False}),
        "lie": Setting(wrong("fsync does nothing", "power"), ALWAYS, environment=LYING),
        "replica": Setting(less(REPLICATION, "failover") | kept(TRANSACTIONS, "partition"), ALWAYS, nodes=2),
        "replica-wait": Setting(less(REPLICATION, "failover"), ALWAYS, nodes=2, options={"wait": 1}),
        "replica-reads": Setting(less(REPLICATION, "none"), nodes=2, reads_from_standby=True),
    }

    def version(self) -> str:
        return version_of(program("redis-server"), "--version")

    def command(self, node: Node) -> list[str]:
        arguments = {"save": "", "protected-mode": "no", "bind": "0.0.0.0"} | dict(node.setting.arguments)
        words = [word for name, value in arguments.items() for word in (f"--{name}", value)]
        source = ["--replicaof", node.source.host, str(node.source.port)] if node.source else []
        return [program("redis-server"), "--port", str(node.port), "--dir", str(node.folder), *words, *source]

    def ready(self, node: Node) -> bool:
        return self._info(node.address).get("loading") == 0

    def settled(self, nodes: Sequence[Node]) -> bool:
        return len(nodes) < 2 or self._info(nodes[1].address).get("master_link_status") == "up"

    def connect(self, addresses: Sequence[Address], setting: Setting) -> Store:
        for number, address in enumerate(addresses):
            if len(addresses) == 1 or self._info(address).get("role") == "master":
                return RedisStore(connected(address), setting, 0 if number else setting.options.get("wait", 0))
        raise Lost("there is no primary")

    def terminate(self, node: Node) -> int:
        return connected(node.address).client_kill_filter(_type="normal", skipme=True)

    def promote(self, node: Node) -> None:
        connected(node.address).replicaof("NO", "ONE")

    def _info(self, address: Address) -> dict:
        """Returns what a node says of itself, or nothing if it does not answer."""
        import redis
        with suppress(redis.exceptions.RedisError):
            return connected(address).info()
        return {}


DATABASE = Redis()
