"""Links between clients and nodes, and between nodes, that can be cut.

A `Proxy` stands between the two ends of TCP connections. A `Network` gives each node a network of its own, and
drops packets between nodes by routing rules."""

import socket
import subprocess
import threading
import time
from collections.abc import Sequence
from dataclasses import dataclass
from random import Random

from harness.database import program
from harness.outcomes import CutShort, NoEffect

# How long a connection to a server, or a program of the network, may take, in seconds.
PATIENCE = 5
# How long a node that is apart may try to reach another, in seconds.
UNREACHED = 0.5
# How long the answers of a connection are swallowed before it is cut, in seconds.
SWALLOWED = 0.03


@dataclass(eq=False)
class Pair:
    """Both ends of a proxied connection."""
    client: socket.socket
    server: socket.socket
    swallowed: int = 0


class Proxy:
    """A TCP proxy in front of a node. `cut` forwards what a client sends, swallows what the server answers for
    a moment, and closes the connection: the client cannot know whether its last request took effect.
    `swallow` does so to all connections, also new ones, until `restore`: a standby behind it falls behind."""

    def __init__(self, target: tuple[str, int], host: str = "127.0.0.1"):
        self._target = target
        self._listener = socket.create_server((host, 0), backlog=64)
        self.host, self.port = host, self._listener.getsockname()[1]
        self._pairs: list[Pair] = []
        self._swallowing: set[Pair] = set()
        self._swallows_all = False
        self.swallowed = 0
        self._lock = threading.Lock()
        threading.Thread(target=self._accept, daemon=True).start()

    def cut(self, draw: Random, most: int) -> tuple[int, int]:
        """Cuts some connections, and returns how many, and the bytes of their replies that were swallowed."""
        with self._lock:
            chosen = draw.sample(self._pairs, min(most, len(self._pairs)))
            self._swallowing.update(chosen)
        time.sleep(SWALLOWED)
        for pair in chosen:
            self._close(pair)
        return len(chosen), sum(pair.swallowed for pair in chosen)

    def swallow(self) -> None:
        """Swallows all answers from now on, and counts their bytes."""
        with self._lock:
            self.swallowed, self._swallows_all = 0, True

    def restore(self) -> None:
        """Closes all connections, and forwards answers on new ones."""
        self._swallows_all = False
        self.drop()

    def drop(self) -> None:
        """Closes all connections."""
        for pair in list(self._pairs):
            self._close(pair)

    def close(self) -> None:
        """Closes the proxy."""
        self._listener.close()
        self.drop()

    def _accept(self) -> None:
        while True:
            try:
                client, _ = self._listener.accept()
            except OSError:
                return
            try:
                server = socket.create_connection(self._target, timeout=PATIENCE)
                server.settimeout(None)
            except OSError:
                client.close()
                continue
            for end in (client, server):
                end.setsockopt(socket.IPPROTO_TCP, socket.TCP_NODELAY, 1)
            pair = Pair(client, server)
            with self._lock:
                self._pairs.append(pair)
            for source, sink in ((client, server), (server, client)):
                threading.Thread(target=self._pump, args=(pair, source, sink), daemon=True).start()

    def _pump(self, pair: Pair, source: socket.socket, sink: socket.socket) -> None:
        try:
            while data := source.recv(65536):
                if source is pair.server and (self._swallows_all or pair in self._swallowing):
                    self.swallowed += len(data)
                    pair.swallowed += len(data)
                else:
                    sink.sendall(data)
        except OSError:
            pass
        self._close(pair)

    def _close(self, pair: Pair) -> None:
        with self._lock:
            if pair in self._pairs:
                self._pairs.remove(pair)
            self._swallowing.discard(pair)
        for end in (pair.client, pair.server):
            try:
                end.shutdown(socket.SHUT_RDWR)
            except OSError:
                pass
            end.close()


def _ip(*words: str) -> None:
    done = subprocess.run([program("ip"), *words], capture_output=True, text=True, timeout=PATIENCE, check=False)
    if done.returncode != 0:
        raise CutShort(f"ip {' '.join(words)}: {done.stderr.strip()}")


class Network:
    """A network namespace for each node, linked to the harness's own, which forwards packets. All links of
    clients stay when nodes are apart."""

    def __init__(self, count: int):
        self._rules: list[list[str]] = []
        self._count = count
        with open("/proc/sys/net/ipv4/ip_forward", "w", encoding="ascii") as file:
            file.write("1")
        for number in range(count):
            name = f"n{number}"
            _ip("netns", "add", name)
            _ip("link", "add", f"v{number}", "type", "veth", "peer", "name", "e0", "netns", name)
            _ip("addr", "add", f"10.77.{number}.1/24", "dev", f"v{number}")
            _ip("link", "set", f"v{number}", "up")
            _ip("-n", name, "addr", "add", f"{self.host(number)}/24", "dev", "e0")
            for device in ("e0", "lo"):
                _ip("-n", name, "link", "set", device, "up")
            _ip("-n", name, "route", "add", "default", "via", f"10.77.{number}.1")

    @staticmethod
    def host(number: int) -> str:
        """Returns the address of a node."""
        return f"10.77.{number}.2"

    @staticmethod
    def inside(number: int, user: dict) -> list[str]:
        """Returns the words before a command that is run in a node's network, as a user of `as_user`. (Not
        `ip netns exec`, whose mount namespace would keep a file system mounted that loses its power.)"""
        words = [program("nsenter"), f"--net=/run/netns/n{number}"]
        if user:
            words += [program("setpriv"), "--reuid", str(user["user"]), "--regid", str(user["group"]),
                      "--clear-groups"]
        return words

    def part(self, one: int, ports: Sequence[int]) -> None:
        """Cuts a node off from all others. Checks that it reached each of them at its port before, and reaches
        none of them afterwards."""
        others = [number for number in range(self._count) if number != one]
        for other in others:
            if not self._reaches(one, other, ports[other], PATIENCE):
                raise NoEffect(f"node {one} did not reach node {other} before the partition")
        for other in others:
            self._drop(one, other)
            self._drop(other, one)
        for other in others:
            if self._reaches(one, other, ports[other], UNREACHED):
                raise NoEffect(f"node {one} reaches node {other} in spite of the partition")

    def heal(self) -> None:
        """Ends the partition."""
        for words in self._rules:
            _ip("rule", "del", *words)
        self._rules = []

    def remove(self) -> None:
        """Removes all networks."""
        self.heal()
        for number in range(self._count):
            _ip("link", "del", f"v{number}")
            _ip("netns", "del", f"n{number}")

    def _drop(self, one: int, other: int) -> None:
        words = ["from", self.host(one), "to", self.host(other), "blackhole"]
        _ip("rule", "add", *words)
        self._rules.append(words)

    def _reaches(self, one: int, other: int, port: int, seconds: float) -> bool:
        """Returns whether a node can connect to another at a port."""
        words = [*self.inside(one, {}), "timeout", str(seconds), "bash", "-c",
                 f"</dev/tcp/{self.host(other)}/{port}"]
        try:
            done = subprocess.run(words, capture_output=True, timeout=PATIENCE + seconds, check=False)
        except subprocess.TimeoutExpired:
            raise NoEffect(f"the machine is too busy to see whether node {one} reaches node {other}") from None
        return done.returncode == 0
