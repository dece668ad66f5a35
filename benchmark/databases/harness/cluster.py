"""The nodes of a database in a run: their folders, processes and links."""

import fcntl
import os
import shutil
import subprocess
from dataclasses import dataclass, replace
from pathlib import Path

from harness.database import Address, Database, Node, Setting
from harness.disk import Disk
from harness.links import Network, Proxy
from harness.outcomes import CutShort, Damaged
from harness.processes import as_user, family, give, go_on, kill, run_as, wait_until

# How long a node may take to accept clients, and nodes to find each other, in seconds.
START_PATIENCE = 120.0
SETTLE_PATIENCE = 60.0
# Ports of node 0, within a network that only this run has. The next node has the next ten.
FIRST_PORT = 7000
PEER = 1
# The file to which a server's output goes, beside its data folder.
LOG = "log"


@dataclass(frozen=True)
class Needs:
    """What a fault needs of a cluster."""
    disk: bool = False
    proxies: bool = False
    network: bool = False


class Cluster:
    """A database that is started, broken and stopped. `folder` is empty, `templates` has prepared data folders
    of earlier runs."""

    def __init__(self, database: Database, setting: Setting, folder: Path, templates: Path):
        self.database, self.setting = database, setting
        self._folder, self._templates = folder, templates
        self._processes: dict[int, subprocess.Popen] = {}
        self.nodes: list[Node] = []
        self.primary = 0
        self.disk: Disk | None = None
        self.network: Network | None = None
        self.link: Proxy | None = None
        self.proxies: list[Proxy] = []

    def start(self, needs: Needs) -> None:
        """Starts all nodes, and returns when they accept clients."""
        place = self._folder / "data"
        place.mkdir()
        if needs.disk:
            self.disk = Disk(place)
        place.chmod(0o755)
        self._lay_out(place, needs)
        if not self.database.is_embedded:
            self._start_servers()
        if needs.proxies:
            self.proxies = [Proxy((node.host, node.port)) for node in self.nodes]

    def addresses(self) -> tuple[Address, ...]:
        """Returns where clients find the nodes."""
        if self.proxies:
            return tuple(replace(node.address, host=proxy.host, port=proxy.port)
                         for node, proxy in zip(self.nodes, self.proxies))
        return tuple(node.address for node in self.nodes)

    def pids(self, number: int) -> list[int]:
        """Returns the processes of a node."""
        return family(self._processes[number].pid)

    def check_running(self, number: int) -> None:
        """Raises `Damaged` if a node has ended by itself."""
        process = self._processes[number]
        if process.poll() is not None:
            raise Damaged(f"node {number} ended with status {process.returncode}: {self._last_words(number)}")

    def kill(self, number: int) -> int:
        """Kills all processes of a node that runs, and returns how many there were."""
        self.check_running(number)
        pids = self.pids(number)
        kill(pids)
        self._processes[number].wait()
        return len(pids)

    def restart(self, number: int) -> None:
        """Starts a node that was killed, and waits until it accepts clients."""
        self.launch(number)
        self.await_ready(number)

    def await_ready(self, number: int) -> None:
        """Waits until a node accepts clients. Raises `Damaged` if it ends or does not in time."""
        process, node = self._processes[number], self.nodes[number]

        def is_ready_or_over() -> bool:
            return process.poll() is not None or self.database.ready(node)

        if not wait_until(is_ready_or_over, START_PATIENCE, 0.05):
            raise Damaged(f"node {number} accepts no clients after {START_PATIENCE:.0f} seconds")
        self.check_running(number)

    def await_settled(self) -> None:
        """Waits until the nodes that run have found each other."""
        if not self.database.is_embedded:
            alive = [node for node in self.nodes if self._processes[node.number].poll() is None]
            if not wait_until(lambda: self.database.settled(alive), SETTLE_PATIENCE, 0.1):
                raise CutShort(f"the nodes did not find each other within {SETTLE_PATIENCE:.0f} seconds")

    def leader(self) -> int:
        """Returns the number of the node that leads: the primary, or whichever the nodes have chosen."""
        return self.database.leader(self.nodes) if self.database.has_equal_nodes else self.primary

    def stop(self) -> None:
        """Ends everything that was started."""
        for proxy in [*self.proxies, *([self.link] if self.link else [])]:
            proxy.close()
        for number, process in self._processes.items():
            if process.poll() is None:
                pids = self.pids(number)
                kill(pids)
                go_on(pids)
                process.wait()
        if self.disk:
            self.disk.remove()
        if self.network:
            self.network.remove()

    def keep_logs(self, folder: Path, prefix: str) -> None:
        """Copies what the servers wrote to a folder."""
        for node in self.nodes:
            log = self._log(node.number)
            if log.exists():
                shutil.copyfile(log, folder / f"{prefix}.node{node.number}.log")

    def _lay_out(self, place: Path, needs: Needs) -> None:
        """Chooses the folders and addresses of all nodes."""
        count = self.setting.nodes
        self.network = Network(count) if needs.network and self.database.has_equal_nodes else None
        hosts = [Network.host(number) if self.network else "127.0.0.1" for number in range(count)]
        ports = [FIRST_PORT + 10 * number for number in range(count)]
        folders = [place / f"node{number}" for number in range(count)]
        peers = tuple(Address(host, port + PEER, folder)
                      for host, port, folder in zip(hosts, ports, folders))
        for number, folder in enumerate(folders):
            folder.mkdir(mode=0o700)
            give(folder, self.database.user)
            self.nodes.append(Node(number, folder, Address(hosts[number], ports[number], folder), peers,
                                   self.setting))

    def _start_servers(self) -> None:
        for number in range(len(self.nodes)):
            if number and not self.database.has_equal_nodes:
                self._add_standby(number)
            else:
                self._install(self.nodes[number])
        for number in range(len(self.nodes)):
            if number not in self._processes:
                self.launch(number)
        for number in range(len(self.nodes)):
            self.await_ready(number)
        self.await_settled()

    def _install(self, node: Node) -> None:
        """Fills a data folder, from the template of an earlier run if there is one."""
        name = type(self.database).__module__
        template, part = self._templates / name, self._templates / f"{name}.part"
        with open(self._templates / f"{name}.lock", "wb") as lock:
            fcntl.flock(lock, fcntl.LOCK_EX)  # a run beside this one may be making the template
            if not template.exists():
                self.database.install(node)
                run_as(None, ["cp", "-aT", str(node.folder), str(part)], START_PATIENCE)
                part.rename(template)
                return
        run_as(None, ["cp", "-aT", str(template), str(node.folder)], START_PATIENCE)

    def _add_standby(self, number: int) -> None:
        """Starts a standby, which finds its primary through a proxy."""
        if 0 not in self._processes:
            self.restart(0)
        self.link = self.link or Proxy((self.nodes[0].host, self.nodes[0].port))
        source = replace(self.nodes[0].address, host=self.link.host, port=self.link.port)
        self.nodes[number] = replace(self.nodes[number], source=source)
        self.database.join(self.nodes[number])
        self.restart(number)

    def launch(self, number: int) -> None:
        """Starts the process of a node that is not running."""
        node = self.nodes[number]
        words, user = self.database.command(node), as_user(self.database.user)
        if self.network:
            words, user = [*self.network.inside(number, user), *words], {}
        with open(self._log(number), "ab") as log:
            self._processes[number] = subprocess.Popen(
                words, stdin=subprocess.DEVNULL, stdout=log, stderr=log, cwd="/",
                env={**os.environ, **self.setting.environment}, **user)

    def _log(self, number: int) -> Path:
        return self._folder / f"{LOG}{number}"

    def _last_words(self, number: int) -> str:
        lines = self._log(number).read_text(encoding="utf-8", errors="replace").strip().splitlines()
        return lines[-1][:200] if lines else "no message"
