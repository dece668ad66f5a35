"""A client: makes its calls one after the other, reconnects after faults, and sends each event of a call to its
recorder, so that nothing is forgotten if the client is killed."""

import random
import time
from collections.abc import Callable
from dataclasses import dataclass

from harness.outcomes import Damaged, Lost, Refused, Unknown
from harness.records import Began, Committing, Completed, GivenUp, Mistake, Over, Policy, Seat, Tried
from harness.sessions import Session
from harness.tasks import is_read

# How often a refused task is tried, and the longest pause before the next try, in seconds.
TRIES = 64
MOST_PAUSE = 0.05
# How long a client looks for a database that does not answer, in seconds.
PATIENCE = 30.0
# Longest pause of a client that takes the end before the commit on purpose, in seconds: as long as a disk may take
# to sync the commit. The data folders are in memory.
EARLY_PAUSE = 0.004
# The longest part of an error that a note keeps.
MOST_NOTE = 200


@dataclass(frozen=True)
class Behaviour:
    """How a client behaves."""
    policy: Policy = Policy.ASK
    mistake: Mistake | None = None
    tries: int = TRIES
    patience: float = PATIENCE


class Client:
    """One client. `connect` opens a session or raises `Lost`; `send` takes each message for the recorder."""

    def __init__(self, behaviour: Behaviour, seat: Seat, connect: Callable[[], Session],
                 send: Callable[[object], None]):
        self._behaviour, self._seat, self._connect, self._send = behaviour, seat, connect, send
        self._random = random.Random(f"{seat.number} {seat.incarnation} {seat.position}")
        self._session: Session | None = None
        self._committing = 0

    def run(self, lines: list[str], has_time: Callable[[], bool] = lambda: True) -> None:
        """Makes the calls of all lines from the seat's position on, while there is time."""
        begin, is_unknown = self._seat.begin, self._seat.is_unknown
        for position in range(self._seat.position, len(lines)):
            if begin is None and not has_time():
                break
            begin = time.monotonic_ns() if begin is None else begin
            self._send(Began(position, begin, lines[position]))
            try:
                reply = self._call(lines[position], f"{self._seat.number}-{position}", is_unknown)
                self._send(Completed(self._end(), reply))
            except Unknown as unknown:
                self._send(GivenUp(True, unknown.reply))
            except (Lost, Refused, Damaged):
                self._send(GivenUp(False))
            begin, is_unknown = None, False
        self._disconnect()
        self._send(Over())

    def reach(self) -> Session:
        """Returns the session, which is opened unless it is open."""
        if self._session is None:
            self._session = self._connect()
            self._session.before_commit = self._before_commit
        return self._session

    def _end(self) -> int:
        return self._committing if self._behaviour.mistake is Mistake.EARLY_END else time.monotonic_ns()

    def _before_commit(self) -> None:
        self._committing = time.monotonic_ns()
        self._send(Committing())
        if self._behaviour.mistake is Mistake.EARLY_END:
            time.sleep(self._random.uniform(0, EARLY_PAUSE))

    def _call(self, line: str, token: str, is_unknown: bool) -> str:
        """Tries a task until it has a reply. Raises `Unknown` if it is given up and a try may have taken
        effect, with the reply if there is one such try, and otherwise how the last try ended."""
        policy, refusals, limit = self._behaviour.policy, 0, None
        used = token if policy.has_tokens and not is_read(line) else None
        while True:
            try:
                return self.reach().call(line, used)
            except Refused as refused:
                refusals += 1
                self._send(Tried("refused"))
                error = refused
            except Unknown as unknown:
                self._disconnect()
                self._send(Tried("unknown", str(unknown)[:MOST_NOTE]))
                is_unknown, error = True, unknown
                if not policy.retries:
                    raise
            except (Lost, Damaged) as lost:
                self._disconnect()
                self._send(Tried("damaged" if isinstance(lost, Damaged) else "lost", str(lost)[:MOST_NOTE]))
                error = lost
            limit = limit or time.monotonic() + self._behaviour.patience
            if refusals >= self._behaviour.tries or time.monotonic() > limit:
                raise Unknown("given up after an unknown try") if is_unknown else error
            self._pause(refusals)

    def _pause(self, refusals: int) -> None:
        time.sleep(self._random.uniform(0.0005, min(MOST_PAUSE, 0.001 * 2 ** max(refusals, 3))))

    def _disconnect(self) -> None:
        if self._session is not None:
            try:
                self._session.close()
            except Exception:  # whatever the client library says of a connection that has ended
                pass
        self._session = None
