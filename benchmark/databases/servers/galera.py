"""MariaDB with Galera: three servers, each of which accepts writes."""

from collections.abc import Sequence

from harness.database import Node, Setting, less
from harness.outcomes import Missing
from servers.mariadb import Mariadb, isolated

ISOLATION = "https://mariadb.com/kb/en/galera-cluster-system-variables/#wsrep_sync_wait"
LIBRARY = "/usr/lib/galera/libgalera_smm.so"
# Ports of a node beside those of its clients and peers: for the state of a server that joins.
INCREMENTAL, WHOLE = 1, 2
ARGUMENTS = {"binlog-format": "ROW", "innodb-autoinc-lock-mode": "2", "wsrep-on": "ON", "wsrep-provider": LIBRARY,
             "wsrep-cluster-name": "vacation", "wsrep-sst-method": "rsync", "wsrep-slave-threads": "2"}
PROVIDER = {"gcache.size": "16M", "evs.suspect_timeout": "PT1S", "evs.inactive_timeout": "PT3S",
            "evs.keepalive_period": "PT0.3S", "evs.inactive_check_period": "PT0.3S"}


class Galera(Mariadb):
    """Galera by isolation of the sessions."""
    packages = ("mariadb-server", "galera-4", "rsync", "python3-pymysql")
    programs = ("mariadb-install-db", "rsync")
    has_equal_nodes = True
    settings = {
        "repeatable-read": Setting(less(ISOLATION, "none", "kill"), nodes=3, session=isolated("REPEATABLE READ")),
        "serializable-wait": Setting(less(ISOLATION, "none", "partition", "pause"), nodes=3, session=isolated(
            "SERIALIZABLE", "SET SESSION wsrep_sync_wait = 7")),
    }

    def version(self) -> str:
        try:
            with open(LIBRARY, "rb"):
                return super().version()
        except OSError:
            raise Missing(f"there is no library {LIBRARY}") from None

    def command(self, node: Node) -> list[str]:
        peer = node.peers[node.number]
        provider = PROVIDER | {"base_host": peer.host, "base_port": peer.port,
                               "ist.recv_addr": f"{peer.host}:{peer.port + INCREMENTAL}"}
        options = ";".join(f"{name}={value}" for name, value in provider.items())
        # The first start of the first node begins the cluster; every other start joins it.
        is_first = node.number == 0 and not (node.folder / "grastate.dat").exists()
        others = "" if is_first else ",".join(f"{one.host}:{one.port}" for one in node.peers)
        arguments = ARGUMENTS | {"wsrep-provider-options": options, "wsrep-node-name": f"n{node.number}",
                                 "wsrep-node-address": f"{peer.host}:{peer.port}",
                                 "wsrep-sst-receive-address": f"{peer.host}:{peer.port + WHOLE}",
                                 "wsrep-cluster-address": f"gcomm://{others}"}
        return [*super().command(node), *(f"--{name}={value}" for name, value in arguments.items()),
                *(["--wsrep-new-cluster"] if is_first else [])]

    def ready(self, node: Node) -> bool:
        return self.ask(node, "SHOW STATUS LIKE 'wsrep_ready'") == [("wsrep_ready", "ON")]

    def settled(self, nodes: Sequence[Node]) -> bool:
        size = [("wsrep_cluster_size", str(len(nodes)))]
        return all(self.ready(node) and self.ask(node, "SHOW STATUS LIKE 'wsrep_cluster_size'") == size
                   for node in nodes)

    def leader(self, nodes: Sequence[Node]) -> int:
        """Returns the first node: all are equal."""
        return 0


DATABASE = Galera()
