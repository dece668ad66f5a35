"""All clients of a run, each in a process of its own: started, killed, and started again by this module."""

import multiprocessing
import os
import signal
import threading
import time
from collections import Counter
from collections.abc import Iterator
from contextlib import contextmanager
from dataclasses import dataclass
from typing import Any

from harness.clients import Behaviour, Client
from harness.database import Address, Database, Setting
from harness.outcomes import CutShort, Damaged, Lost
from harness.processes import end_with_parent, has_ended, send, wait_until
from harness.records import Began, Committing, Recorder, Seat
from harness.sessions import Session, open_session
from harness.tasks import is_read

# How long the clients may take to connect before the run, and to end after it, in seconds.
CONNECT_PATIENCE = 120.0
END_PATIENCE = 120.0
# How long the status of a process that has ended may take to be known, in seconds.
STATUS_PATIENCE = 5.0
# A run ends when its pending calls and its clients come to so many: the judge decides its history within seconds.
MOST_PENDING = 10


@dataclass(frozen=True)
class Target:
    """The database that clients connect to."""
    database: Database
    setting: Setting
    addresses: tuple[Address, ...]

    def connect(self, number: int, is_split: bool = False) -> Session:
        """Connects client `number`."""
        return open_session(self.database, self.setting, self.addresses, number, is_split)

    @contextmanager
    def environment(self) -> Iterator[None]:
        """Sets the variables with which clients of a database without a server are started."""
        variables = self.setting.environment if self.database.is_embedded else {}
        os.environ.update(variables)
        try:
            yield
        finally:
            for name in variables:
                del os.environ[name]


@dataclass(frozen=True)
class Shared:
    """Memory that the harness and the clients share, without a lock, which a killed client might hold: until when
    calls may begin (0 before the run), and of each client whether it is committing a task that writes."""
    deadline: Any
    committing: Any


def _work(target: Target, behaviour: Behaviour, seat: Seat, lines: list[str], pipe, shared: Shared) -> None:
    """Runs a client in its process. The clients begin when their deadline is set."""
    signal.signal(signal.SIGINT, signal.SIG_IGN)
    signal.signal(signal.SIGTERM, signal.SIG_DFL)
    end_with_parent(multiprocessing.parent_process().pid)()
    writes = False

    def send(message: object) -> None:
        nonlocal writes
        pipe.send(message)
        if isinstance(message, Began):
            writes = not is_read(message.line)
        shared.committing[seat.number] = writes and isinstance(message, Committing)

    is_split = behaviour.mistake is not None and behaviour.mistake.value == "split"
    client = Client(behaviour, seat, lambda: target.connect(seat.number, is_split), send)
    try:
        if shared.deadline.value == 0:
            _connect_first(client)
            pipe.send("connected")
        while shared.deadline.value == 0:
            time.sleep(0.005)
        client.run(lines, lambda: time.monotonic() < shared.deadline.value)
    except BrokenPipeError:
        pass  # the harness has ended


def _connect_first(client: Client) -> None:
    limit = time.monotonic() + CONNECT_PATIENCE / 2
    while True:
        try:
            client.reach()
            return
        except (Lost, Damaged):
            if time.monotonic() > limit:
                raise
            time.sleep(0.05)


class Crew:
    """The clients of a run. A thread for each client starts its process, records what it reports, and starts
    a successor if it was killed."""

    def __init__(self, target: Target, behaviour: Behaviour, tasks: dict[int, list[str]]):
        self._context = multiprocessing.get_context("spawn")
        self._target, self._behaviour, self._tasks = target, behaviour, tasks
        self.recorders = {number: Recorder(Seat(number), behaviour.policy, behaviour.mistake)
                          for number in tasks}
        self._processes: dict[int, multiprocessing.Process] = {}
        self._threads: list[threading.Thread] = []
        self._lock = threading.Lock()
        self._may_start = threading.Event()
        self._may_start.set()
        self._shared = Shared(self._context.RawValue("d", 0.0), self._context.RawArray("b", max(tasks) + 1))
        self._connected: set[int] = set()
        self.failure: str | None = None

    def start(self) -> None:
        """Starts all clients, and waits until each is connected."""
        for number in self._tasks:
            thread = threading.Thread(target=self._keep, args=(number,), daemon=True)
            thread.start()
            self._threads.append(thread)
        limit = time.monotonic() + CONNECT_PATIENCE
        while len(self._connected) < len(self._tasks):
            if self.failure or time.monotonic() > limit:
                raise CutShort(self.failure or "the clients could not connect")
            time.sleep(0.01)

    def begin(self, seconds: float) -> None:
        """Lets the clients make calls until `finish`, and for so many seconds at most."""
        self._shared.deadline.value = time.monotonic() + seconds

    def finish(self) -> None:
        """Lets the clients end after their current calls, and waits for them."""
        self._shared.deadline.value = min(self._shared.deadline.value, time.monotonic()) or time.monotonic()
        limit = time.monotonic() + END_PATIENCE
        for thread in self._threads:
            thread.join(max(0.1, limit - time.monotonic()))
        if self.failure or any(thread.is_alive() for thread in self._threads):
            raise CutShort(self.failure or f"a client did not end within {END_PATIENCE:.0f} seconds")

    def is_working(self) -> bool:
        """Returns whether some client still makes calls, and none has failed."""
        return self.failure is None and any(thread.is_alive() for thread in self._threads)

    def counts(self) -> Counter:
        """Returns how the calls and tries of all clients ended so far."""
        return sum((recorder.counts for recorder in self.recorders.values()), Counter())

    def completed(self) -> int:
        """Returns the number of completed calls so far."""
        return self.counts()["completed"]

    def calls(self) -> dict[int, int]:
        """Returns the number of completed calls of each client that has tasks left."""
        return {number: recorder.counts["completed"] for number, recorder in self.recorders.items()
                if not recorder.is_over}

    def ended_connections(self) -> int:
        """Returns how often clients have reported that their connection had ended."""
        counts = self.counts()
        return counts["lost"] + counts["unknown"]

    def has_enough_pending(self) -> bool:
        """Returns whether a call is pending, and with one more of each client there were too many."""
        pending = self.counts()["pending"]
        return pending > 0 and pending + len(self._tasks) >= MOST_PENDING

    def pids(self) -> list[int]:
        """Returns the processes of the clients that have not ended."""
        with self._lock:
            pids = [process.pid for process in self._processes.values()]
        # (`is_alive` would take the status of a process away from the thread that waits for it)
        return [pid for pid in pids if not has_ended(pid)]

    def committing(self) -> list[int]:
        """Returns the processes of clients that are committing a task that writes."""
        with self._lock:
            return [process.pid for number, process in self._processes.items() if self._shared.committing[number]]

    def hold(self) -> None:
        """Starts no client until `release`."""
        self._may_start.clear()

    def release(self) -> None:
        """Lets successors of killed clients start."""
        self._may_start.set()

    def end(self) -> None:
        """Kills all clients for good."""
        for recorder in self.recorders.values():
            recorder.is_over = True
        self._may_start.set()
        send(self.pids(), signal.SIGKILL)

    def _keep(self, number: int) -> None:
        recorder = self.recorders[number]
        try:
            while not recorder.is_over and self.failure is None:
                self._may_start.wait()
                found = self._start_process(number)
                if found is not None:
                    self._follow(recorder, *found)
        except OSError as error:
            self.failure = f"client {number} does not start: {error}"

    def _follow(self, recorder: Recorder, process, pipe) -> None:
        """Records what a client reports until its process has ended."""
        self._listen(recorder, pipe)
        process.join()
        if recorder.is_over:
            return
        # Another thread that starts a process may take the status, and knows it a moment later.
        wait_until(lambda: process.exitcode is not None, STATUS_PATIENCE)
        if process.exitcode == -signal.SIGKILL:
            recorder.killed()
        else:
            self.failure = f"client {recorder.seat.number} ended with status {process.exitcode}"

    def _start_process(self, number: int):
        """Starts the process of a client, unless clients are held."""
        ours, theirs = self._context.Pipe(duplex=False)
        process = self._context.Process(
            target=_work, daemon=True, args=(self._target, self._behaviour, self.recorders[number].seat,
                                             self._tasks[number], theirs, self._shared))
        with self._lock:
            if self._may_start.is_set():
                self._shared.committing[number] = False
                with self._target.environment():
                    process.start()
                self._processes[number] = process
        theirs.close()
        if process.pid is None:
            ours.close()
            return None
        return process, ours

    def _listen(self, recorder: Recorder, pipe) -> None:
        try:
            while True:
                message = pipe.recv()
                if message == "connected":
                    self._connected.add(recorder.seat.number)
                else:
                    recorder.take(message)
        except (EOFError, OSError):
            pass
        finally:
            pipe.close()
