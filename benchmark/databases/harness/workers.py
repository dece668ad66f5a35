"""Workers: processes that do runs side by side. Each has namespaces of its own inside those of the harness, so that
two runs share neither ports nor processes nor mounts. They end with the harness, however it ends."""

import os
import pickle
import queue
import subprocess
import sys
from collections.abc import Callable, Iterable, Iterator
from concurrent.futures import ThreadPoolExecutor
from contextlib import contextmanager, suppress
from dataclasses import dataclass
from pathlib import Path
from typing import BinaryIO

from harness import spaces
from harness.judge import Programs
from harness.outcomes import CutShort
from harness.processes import end_with_parent
from harness.progress import Progress
from harness.runs import Plan, Result, run

# How long a worker may take to end after its last run, in seconds.
PATIENCE = 20


@dataclass(frozen=True)
class Order:
    """A run that a worker is to do in a new folder, and the judges for it."""
    plan: Plan
    programs: Programs
    place: Path


class Worker:
    """A process that does one run after the other, each in the new folder `place`."""

    def __init__(self, place: Path):
        self._place, temporary = place, place.with_suffix(".tmp")
        temporary.mkdir()
        temporary.chmod(0o1777)  # users of servers write here
        # (not `-m`: each client would import what its worker's main module does)
        self._process = subprocess.Popen(
            [*spaces.inner(), sys.executable, "-c", "from harness.workers import main; main()"],
            stdin=subprocess.PIPE, stdout=subprocess.PIPE, env=os.environ | {"TMPDIR": str(temporary)},
            preexec_fn=end_with_parent(os.getpid()))

    def do(self, plan: Plan, programs: Programs, say: Callable[[str], None]) -> Result:
        """Has the process do a run, and returns the result. `say` takes the run's progress meanwhile."""
        try:
            _send(self._process.stdin, Order(plan, programs, self._place))
            while not isinstance(message := pickle.load(self._process.stdout), Result):
                say(message)
        except (EOFError, OSError, pickle.UnpicklingError) as error:
            raise CutShort(f"a worker has ended with status {self._process.wait(PATIENCE)}") from error
        return message

    def close(self) -> None:
        """Ends the process."""
        with suppress(OSError):  # of a process that has ended
            self._process.stdin.close()
        try:
            self._process.wait(PATIENCE)
        except subprocess.TimeoutExpired:
            self._process.kill()
            self._process.wait()


class Reporter(Progress):
    """Sends what a run does to the harness."""

    def __init__(self, channel: BinaryIO):
        super().__init__()
        self._channel = channel

    def write(self, text: str) -> None:
        _send(self._channel, text)


@contextmanager
def workers(count: int, folder: Path) -> Iterator[list[Worker]]:
    """Starts workers, which end when the block is left."""
    started: list[Worker] = []
    try:
        for number in range(count):
            started.append(Worker(folder / f"run{number}"))
        yield started
    finally:
        for worker in started:
            worker.close()


def side_by_side(started: list[Worker], plans: Iterable[Plan], do: Callable[[Worker, Plan], dict]) -> list[dict]:
    """Does a run for each plan, as many at once as there are workers, and returns what `do` returns for each, in
    the order of the plans."""
    free: queue.SimpleQueue[Worker] = queue.SimpleQueue()
    for worker in started:
        free.put(worker)

    def do_next(plan: Plan) -> dict:
        worker = free.get()
        try:
            return do(worker, plan)
        finally:
            free.put(worker)

    with ThreadPoolExecutor(max(1, len(started))) as pool:
        futures = [pool.submit(do_next, plan) for plan in plans]
        try:
            return [future.result() for future in futures]
        finally:
            pool.shutdown(cancel_futures=True)


def _send(channel: BinaryIO, message: object) -> None:
    pickle.dump(message, channel)
    channel.flush()


def main() -> None:
    """Does the runs that are ordered on the standard input, and writes progress and results to the standard
    output. No other process that the worker starts has either of them."""
    orders, channel = os.fdopen(os.dup(0), "rb"), os.fdopen(os.dup(1), "wb")
    with open(os.devnull, "rb") as nothing:
        os.dup2(nothing.fileno(), 0)
    os.dup2(2, 1)
    spaces.furnish_inner()
    while True:
        try:
            order = pickle.load(orders)
        except EOFError:
            return
        _send(channel, run(order.plan, order.programs, order.place, Reporter(channel)))
