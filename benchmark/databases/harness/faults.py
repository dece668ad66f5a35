"""The faults, each written once, over the processes, the data folder and the links of a cluster. A fault returns
when the database accepts clients again, with the effect that was seen. Without one it raises `NoEffect`."""

import time
from abc import ABC, abstractmethod
from collections.abc import Callable, Iterator
from contextlib import contextmanager
from dataclasses import dataclass
from random import Random

from harness.cluster import Cluster, Needs
from harness.crew import Crew
from harness.database import PATIENCE
from harness.outcomes import NoEffect
from harness.processes import go_on, has_ended, is_stopped, kill, stop, wait_until
from harness.sessions import over

# How long a paused node stands, and nodes are apart, in seconds.
PAUSED = 1.0
APART = 2.0
# Longest time between the end of a node and its next start, in seconds.
MOST_DOWN = 0.4
# How long clients may take to notice that their connections are gone, and a node that it is apart, in seconds.
NOTICE_PATIENCE = 10.0
# How long clients without a server are stopped again and again, until one is met in its commit, in seconds.
AIMED = 1.0
# Sessions that a cut ends at once.
CUT_AT_ONCE = 2
# Fewer swallowed bytes may be those by which a primary only says that it is there.
LEAST_SWALLOWED = 200
# Time between the ends of sessions that wait for a standby, in seconds.
TERMINATED_EVERY = 0.2


@dataclass
class Scene:
    """What a fault acts on. `log` notes what was done, with the time."""
    cluster: Cluster
    crew: Crew
    draw: Random
    lag: float
    log: Callable[[str], None]


class Fault(ABC):
    """A fault. `every` is the mean time between the end of one and the begin of the next, in seconds."""
    every: float = 1.5
    is_single = False
    needs = Needs()

    @abstractmethod
    def inject(self, scene: Scene) -> str:
        """Injects the fault, repairs it, and returns the effect that was seen. Raises `NoEffect` if none was."""


def _stop_in_commit(scene: Scene, choose: Callable[[list[int]], list[int]]) -> list[int]:
    """Stops some clients of a database without a server, and returns their processes. Stops them while one is
    committing, if one is met in time: what a client leaves behind there is what a fault must not spoil."""
    limit = time.monotonic() + AIMED
    while True:
        pids = choose(scene.crew.pids())
        stop(pids)
        if all(map(has_ended, pids)):
            raise NoEffect("no client was running")
        is_committing = bool(set(pids) & set(scene.crew.committing()))
        if is_committing or time.monotonic() > limit:
            scene.log(f"{len(pids)} clients stopped, {'one' if is_committing else 'none'} in a commit")
            return pids
        go_on(pids)
        time.sleep(scene.draw.uniform(0, 0.01))


@contextmanager
def _without_clients(scene: Scene) -> Iterator[list[int]]:
    """Stops the clients of a database without a server, kills them, and lets successors start."""
    scene.crew.hold()
    try:
        pids = _stop_in_commit(scene, lambda pids: pids)
        yield pids
        kill(pids)
        time.sleep(scene.draw.uniform(0, MOST_DOWN))
    finally:
        scene.crew.release()


def _leader_or_any(scene: Scene) -> int:
    """Returns the number of the node that leads, or with even odds of any if all are equal."""
    if scene.cluster.database.has_equal_nodes and scene.draw.random() < 0.5:
        return scene.draw.randrange(len(scene.cluster.nodes))
    return scene.cluster.leader()


def _await_notice(scene: Scene, before: int) -> int:
    """Waits until clients report more ended connections than before, and returns how many more."""
    if not wait_until(lambda: scene.crew.ended_connections() > before, NOTICE_PATIENCE):
        raise NoEffect("no client noticed that its connection had ended")
    return scene.crew.ended_connections() - before


class Kill(Fault):
    """SIGKILL of all processes of a node, or of all clients if there is no server. Of several equal nodes the
    leader is killed, or any."""
    every = 1.0

    def inject(self, scene: Scene) -> str:
        cluster = scene.cluster
        if cluster.database.is_embedded:
            with _without_clients(scene) as pids:
                scene.log("clients killed")
            return f"{len(pids)} clients ended"
        number = _leader_or_any(scene)
        count = cluster.kill(number)
        scene.log(f"node {number} killed")
        time.sleep(scene.draw.uniform(0, MOST_DOWN))
        cluster.restart(number)
        return f"{count} processes of node {number} ended"


class Pause(Fault):
    """SIGSTOP of all processes of a node, or of one client if there is no server, for a second."""

    def inject(self, scene: Scene) -> str:
        cluster = scene.cluster
        if cluster.database.is_embedded:
            pids = _stop_in_commit(scene, lambda pids: scene.draw.sample(pids, min(1, len(pids))))
        else:
            pids = cluster.pids(_leader_or_any(scene))
        try:
            stop(pids)
            scene.log(f"{len(pids)} processes stopped")
            time.sleep(PAUSED)
            standing = [pid for pid in pids if is_stopped(pid) and not has_ended(pid)]
        finally:
            go_on(pids)
        if not standing:
            raise NoEffect("no process was running")
        return f"{len(standing)} processes stood for {PAUSED} seconds"


class Power(Fault):
    """Loss of power: all processes end, and writes that were not synced are gone."""
    needs = Needs(disk=True)

    def inject(self, scene: Scene) -> str:
        cluster = scene.cluster
        if cluster.database.is_embedded:
            with _without_clients(scene) as pids:
                cluster.disk.off()
                scene.log("power off")
                kill(pids)
                lost = cluster.disk.on()
            return lost
        cluster.check_running(0)
        stop(cluster.pids(0))
        cluster.disk.off()
        scene.log("power off")
        cluster.kill(0)
        lost = cluster.disk.on()
        cluster.restart(0)
        return lost


class Cut(Fault):
    """The connections of two clients are cut, after their requests and before the replies."""
    every = 0.2
    needs = Needs(proxies=True)

    def inject(self, scene: Scene) -> str:
        before = scene.crew.ended_connections()
        count, swallowed = scene.draw.choice(scene.cluster.proxies).cut(scene.draw, CUT_AT_ONCE)
        if count == 0:
            raise NoEffect("no connection was open")
        scene.log(f"{count} connections cut")
        noticed = _await_notice(scene, before)
        return f"{count} connections cut with {swallowed} bytes of replies; clients noticed {noticed}"


class Terminate(Fault):
    """An administrator ends sessions."""
    every = 0.3

    def inject(self, scene: Scene) -> str:
        cluster = scene.cluster
        before = scene.crew.ended_connections()
        count = cluster.database.terminate(cluster.nodes[cluster.leader()])
        if count == 0:
            raise NoEffect("no session was ended")
        scene.log(f"{count} sessions ended")
        return f"{count} sessions ended; clients noticed {_await_notice(scene, before)}"


class Failover(Fault):
    """The primary is killed for good, and a standby is promoted. With a lag, nothing reaches the standby in the
    seconds before; with `terminates`, sessions are ended during the lag, so that none waits for the standby."""
    is_single = True

    def __init__(self, terminates: bool = False):
        self._terminates = terminates

    def inject(self, scene: Scene) -> str:
        cluster = scene.cluster
        ended = self._fall_behind(scene) if scene.lag > 0 else 0
        cluster.kill(0)
        cluster.link.drop()
        swallowed = cluster.link.swallowed
        scene.log(f"primary killed; {swallowed} bytes did not reach the standby")
        if scene.lag > 0 and swallowed < LEAST_SWALLOWED:
            raise NoEffect(f"the lag of {scene.lag} seconds held only {swallowed} bytes back")
        if self._terminates and not ended:
            raise NoEffect("no session was ended during the lag")
        cluster.database.promote(cluster.nodes[1])
        cluster.primary = 1
        if not wait_until(lambda: _accepts_writes(cluster, 1), PATIENCE, 0.05):
            raise NoEffect("the promoted standby accepts no writes")
        scene.log("standby promoted")
        return f"{swallowed} bytes held back, {ended} sessions ended, and the standby commits a write"

    def _fall_behind(self, scene: Scene) -> int:
        """Holds back what the primary sends to its standby, and returns how many sessions were ended."""
        primary, ended = scene.cluster.nodes[0], 0
        scene.cluster.link.swallow()
        limit = time.monotonic() + scene.lag
        while time.monotonic() < limit:
            time.sleep(min(TERMINATED_EVERY, scene.lag))
            if self._terminates:
                ended += scene.cluster.database.terminate(primary)
        return ended


def _accepts_writes(cluster: Cluster, number: int) -> bool:
    """Returns whether a node commits a transaction that writes."""
    try:
        session = over(cluster.database.connect([cluster.nodes[number].address], cluster.setting), False)
    except Exception:  # the harness's own or the client library's: the node is not ready yet
        return False
    try:
        session.outcome("promotion")
        return True
    except Exception:
        return False
    finally:
        session.close()


class Partition(Fault):
    """A node is cut off from the others for two seconds: the leader, or any. Clients reach all nodes. A standby
    is cut off from its primary."""
    needs = Needs(network=True)

    def inject(self, scene: Scene) -> str:
        cluster = scene.cluster
        if cluster.network is None:
            return self._part_standby(scene)
        number = _leader_or_any(scene)
        node = cluster.nodes[number]
        try:
            cluster.network.part(number, [peer.port for peer in node.peers])
            scene.log(f"node {number} apart")
            time.sleep(APART)
            if not wait_until(lambda: not cluster.database.ready(node), NOTICE_PATIENCE, 0.1):
                raise NoEffect(f"node {number} still accepted clients when it was apart")
            scene.log(f"node {number} accepts no clients")
        finally:
            cluster.network.heal()
        cluster.await_settled()
        return f"node {number} reached no other node, and accepted no clients"

    def _part_standby(self, scene: Scene) -> str:
        link = scene.cluster.link
        link.swallow()
        scene.log("standby apart")
        time.sleep(APART)
        link.restore()
        if link.swallowed < LEAST_SWALLOWED:
            raise NoEffect(f"the partition held only {link.swallowed} bytes back")
        scene.cluster.await_settled()
        return f"{link.swallowed} bytes held back"


FAULTS: dict[str, Fault] = {
    "kill": Kill(),
    "pause": Pause(),
    "power": Power(),
    "cut": Cut(),
    "terminate": Terminate(),
    "failover": Failover(),
    "failover-terminate": Failover(terminates=True),
    "partition": Partition(),
}
NO_FAULT = "none"

