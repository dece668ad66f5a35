"""etcd: three nodes, and optimistic transactions that compare the revisions of all keys read."""

import os
from collections.abc import Sequence
from contextlib import closing, suppress

from harness.database import (
    Address, Database, Node, Setting, first_that_answers, kept, less, program, version_of, wrong)
from harness.keyvalue import Store
from harness.outcomes import Lost, Refused, Unknown, raising

GUARANTEES = "https://etcd.io/docs/v3.4/learning/api_guarantees/"
# How long a reply may take, in seconds.
PATIENCE = 2
# A channel of its own for each client, which looks for a node that was away at once.
CHANNEL = {"grpc.use_local_subchannel_pool": 1, "grpc.initial_reconnect_backoff_ms": 100,
           "grpc.min_reconnect_backoff_ms": 100, "grpc.max_reconnect_backoff_ms": 300}
# Shortest and longest keys of entities.
FIRST, LAST = "c/", "i0"


def connected(address: Address):
    """Returns a client of one node, and the classes of its errors."""
    os.environ["GRPC_VERBOSITY"] = "NONE"
    import etcd3
    import grpc
    client = etcd3.client(address.host, address.port, timeout=PATIENCE, grpc_options=list(CHANNEL.items()))
    return client, (etcd3.exceptions.Etcd3Exception, grpc.RpcError, ValueError)


class EtcdStore(Store):
    """A store that remembers the revision of each key it reads. A read of one key needs no comparison."""

    def __init__(self, address: Address, setting: Setting):
        self._client, self._errors = connected(address)
        self._is_serializable = setting.options.get("serializable", False)
        self._compares = setting.options.get("compares", True)
        self._seen: dict[str, int] = {}

    def get(self, key: str) -> str | None:
        with raising(Lost, self._errors):
            value, found = self._client.get(key, serializable=self._is_serializable)
        self._seen[key] = found.mod_revision if found else 0
        return value.decode() if found else None

    def scan(self) -> dict[str, str]:
        with raising(Lost, self._errors):
            found = self._client.get_range(FIRST, LAST, serializable=self._is_serializable)
            return {about.key.decode(): value.decode() for value, about in found}

    def commit(self, changes: dict[str, str | None]) -> None:
        seen, self._seen = self._seen, {}
        if not changes and len(seen) < 2:
            return
        make = self._client.transactions
        compare = [make.mod(key) == revision for key, revision in seen.items()] if self._compares else []
        success = [make.delete(key) if value is None else make.put(key, value) for key, value in changes.items()]
        with raising(Unknown, self._errors):
            succeeded, _ = self._client.transaction(compare=compare, success=success, failure=[])
        if not succeeded:
            raise Refused("a key has changed")

    def abandon(self) -> None:
        self._seen = {}

    def close(self) -> None:
        self._client.close()


class Etcd(Database):
    """etcd by the consistency of reads."""
    packages, modules, programs = ("etcd-server", "python3-etcd3"), ("etcd3",), ("etcd",)
    has_equal_nodes = True
    settings = {
        "default": Setting(kept(GUARANTEES, "kill", "partition", "pause", "cut", "none"), nodes=3),
        "serializable-reads": Setting(less(GUARANTEES, "partition", "kill"), nodes=3,
                                      options={"serializable": True}),
        "no-compare": Setting(wrong("commits compare nothing", "none"), nodes=3, options={"compares": False}),
    }

    def version(self) -> str:
        return version_of(program("etcd"), "--version")

    def command(self, node: Node) -> list[str]:
        clients = f"http://{node.host}:{node.port}"
        peers = [f"http://{peer.host}:{peer.port}" for peer in node.peers]
        return [program("etcd"), "--name", f"n{node.number}", "--data-dir", str(node.folder / "data"),
                "--listen-client-urls", clients, "--advertise-client-urls", clients,
                "--listen-peer-urls", peers[node.number], "--initial-advertise-peer-urls", peers[node.number],
                "--initial-cluster", ",".join(f"n{number}={peer}" for number, peer in enumerate(peers)),
                "--heartbeat-interval", "50", "--election-timeout", "500", "--log-level", "warn",
                "--log-outputs", "stderr"]

    def ready(self, node: Node) -> bool:
        client, errors = connected(node.address)
        with suppress(*errors), closing(client):
            client.get("ready")
            return True
        return False

    def connect(self, addresses: Sequence[Address], setting: Setting) -> Store:
        def answering(address: Address) -> Store:
            store = EtcdStore(address, setting)
            store.get("ready")
            store.abandon()
            return store

        return first_that_answers(addresses, answering)

    def leader(self, nodes: Sequence[Node]) -> int:
        for node in nodes:
            client, errors = connected(node.address)
            with suppress(*errors, AttributeError), closing(client):
                return int(client.status().leader.name.removeprefix("n"))
        return 0


DATABASE = Etcd()
