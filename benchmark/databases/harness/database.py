"""What the author of a database file writes: one `Database` with its `Setting`s, in one file of the folder
`servers`. The name of the file is the name of the database; `benchmark/databases/README.md` goes through the parts.

A client's connection is a `Connection` (module `sql`), to which the harness sends the rules of docs/RULES.md
in SQL, or a `Store` (module `keyvalue`), over which the harness runs the same rules on keys and values. Both
report errors as `Refused`, `Lost`, `Unknown` or `Damaged` (module `outcomes`)."""

import os
import re
import shutil
import subprocess
from abc import ABC, abstractmethod
from collections.abc import Callable, Mapping, Sequence
from dataclasses import dataclass, field
from enum import Enum
from functools import cache
from pathlib import Path

from harness.keyvalue import Store
from harness.outcomes import Lost, Missing
from harness.sql import Connection

# Folders in which servers are installed beside those of the PATH.
MORE_PROGRAMS = ("/usr/sbin", "/sbin", "/usr/local/sbin")
# Longest time for which a program that only prints its version, or prepares a folder, may run, in seconds.
PATIENCE = 60


class Strength(Enum):
    """How much of what the judge checks a manual promises."""
    KEPT = "promised"
    LESS = "less promised"
    WRONG = "wrong on purpose"


@dataclass(frozen=True)
class Promise:
    """What holds of a setting under one fault, and where the manual says so (or what is wrong)."""
    strength: Strength
    source: str


def kept(link: str, *faults: str) -> dict[str, Promise]:
    """Returns the promises of a setting whose manual promises linearizable, durable transactions under faults."""
    return {fault: Promise(Strength.KEPT, link) for fault in faults}


def less(link: str, *faults: str) -> dict[str, Promise]:
    """Returns the promises of a setting whose manual promises less than the judge checks."""
    return {fault: Promise(Strength.LESS, link) for fault in faults}


def wrong(reason: str, *faults: str) -> dict[str, Promise]:
    """Returns the promises of a setting that is wrong on purpose: within ten runs one must be illegal."""
    return {fault: Promise(Strength.WRONG, reason) for fault in faults}


@dataclass(frozen=True)
class Setting:
    """One way in which a database is run. `promises` has an entry for each fault that the setting is run
    under; `none` is a run without a fault. `arguments` go to the server, `session` has the statements that a
    client's connection begins with, `environment` variables of the server (of the clients, if there is no
    server), and `options` is whatever the database's own file reads."""
    promises: Mapping[str, Promise]
    arguments: Mapping[str, str] = field(default_factory=dict)
    session: tuple[str, ...] = ()
    nodes: int = 1
    environment: Mapping[str, str] = field(default_factory=dict)
    reads_from_standby: bool = False
    options: Mapping[str, object] = field(default_factory=dict)


# The environment of a server whose fsync does nothing.
LYING = {"LD_PRELOAD": "libeatmydata.so"}


@dataclass(frozen=True)
class Address:
    """Where clients find a node: a host and a port, or the data folder of a database without a server."""
    host: str
    port: int
    folder: Path


@dataclass(frozen=True)
class Node:
    """One server of a setting, as its database file sees it. `peers` has the addresses at which the nodes
    reach each other, by number; `source` is where a standby finds its primary, or none for a primary."""
    number: int
    folder: Path
    address: Address
    peers: tuple[Address, ...]
    setting: Setting
    source: Address | None = None

    @property
    def host(self) -> str:
        return self.address.host

    @property
    def port(self) -> int:
        return self.address.port


class Database(ABC):
    """A database: how it is started, and how clients reach it. Instances are sent to the clients' processes,
    so they have no state of their own."""

    # Debian packages without which the database cannot run.
    packages: tuple[str, ...] = ()
    # Python modules of the client library.
    modules: tuple[str, ...] = ()
    # Programs that must be there.
    programs: tuple[str, ...] = ()
    # User as whom the servers run, if the harness runs as root.
    user: str | None = None
    # True if every node accepts writes; otherwise node 0 is the primary, and the others are its standbys.
    has_equal_nodes = False
    # True if there is no server: the clients open the files themselves.
    is_embedded = False
    settings: Mapping[str, Setting] = {}

    @abstractmethod
    def version(self) -> str:
        """Returns the version of what runs."""

    def install(self, node: Node) -> None:
        """Fills the empty data folder of a first node. Called once; other runs get a copy."""

    def join(self, node: Node) -> None:
        """Fills the empty data folder of a standby from the running primary at `node.source`."""

    def command(self, node: Node) -> list[str]:
        """Returns the command that runs a node in the foreground."""
        raise NotImplementedError

    def ready(self, node: Node) -> bool:
        """Returns whether a node accepts clients, within three seconds."""
        raise NotImplementedError

    def settled(self, nodes: Sequence[Node]) -> bool:
        """Returns whether the nodes are connected to each other, before the clients start."""
        return True

    @abstractmethod
    def connect(self, addresses: Sequence[Address], setting: Setting) -> Connection | Store:
        """Connects a client to the first of the addresses that accepts its writes, or raises `Lost`."""

    def connect_for_reads(self, address: Address, setting: Setting) -> Connection | Store:
        """Connects a client to a standby, for a setting with `reads_from_standby`."""
        return self.connect([address], setting)

    def terminate(self, node: Node) -> int:
        """Ends some sessions of clients as an administrator does, and returns how many."""
        raise NotImplementedError

    def promote(self, node: Node) -> None:
        """Makes a standby the primary."""
        raise NotImplementedError

    def leader(self, nodes: Sequence[Node]) -> int:
        """Returns the number of the node that leads."""
        raise NotImplementedError


def first_that_answers(addresses: Sequence[Address], connect: Callable[[Address], Connection | Store]):
    """Connects to the first of the addresses that does not raise `Lost`."""
    lost = Lost("there is no node")
    for address in addresses:
        try:
            return connect(address)
        except Lost as error:
            lost = error
    raise lost


def program(name: str, *more: str) -> str:
    """Returns the path of an installed program, which may be in one of some more folders."""
    path = os.pathsep.join([os.environ.get("PATH", ""), *MORE_PROGRAMS, *more])
    found = shutil.which(name, path=path)
    if found is None:
        raise Missing(f"there is no program {name}")
    return found


@cache
def version_of(*words: str) -> str:
    """Returns the first version number that a program prints, which is asked once."""
    done = subprocess.run(words, capture_output=True, text=True, timeout=PATIENCE, check=False)
    found = re.search(r"\d+\.\d+(\.\d+)?", done.stdout + done.stderr)
    return found.group(0) if found else "unknown"
