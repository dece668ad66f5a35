"""The record of a run's calls: what each client reports, and the history that follows from it."""

from collections import Counter
from dataclasses import dataclass, field
from enum import Enum

from harness.tasks import is_read

# Client k goes on as client k + STRIDE after a call without an end, which must be its client's last.
STRIDE = 1000


class Policy(Enum):
    """What a client does after an unknown outcome."""
    ASK = "ask"
    LEAVE = "leave"
    TOKEN = "token"
    AGAIN = "again"

    @property
    def has_tokens(self) -> bool:
        """True if tasks store their reply under a token."""
        return self in (Policy.ASK, Policy.TOKEN)

    @property
    def retries(self) -> bool:
        """True if an unknown task is tried again."""
        return self in (Policy.TOKEN, Policy.AGAIN)


class Mistake(Enum):
    """Mistakes on purpose of clients and of their recorder."""
    SPLIT = "split"
    FORGET = "forget"
    EARLY_END = "early-end"
    SAME_CLIENT = "same-client"


@dataclass(frozen=True)
class Call:
    """A call with readings of the clock before its first try and after its reply. It has no end if nobody knows
    whether it took effect. If it has a reply all the same, it took effect with this reply or not at all."""
    client: int
    begin: int
    end: int | None
    line: str
    reply: str | None
    token: str = ""

    def __str__(self) -> str:
        end, reply = "-" if self.end is None else self.end, "?" if self.reply is None else self.reply
        return f"{self.client} {self.begin} {end} {self.line} -> {reply}"


# Messages of a client, in the order in which they may come for one call.
@dataclass(frozen=True)
class Began:
    """A call began."""
    position: int
    begin: int
    line: str


@dataclass(frozen=True)
class Committing:
    """The request that may take effect is about to be sent."""


@dataclass(frozen=True)
class Tried:
    """A try ended without a reply: `refused`, `lost`, `unknown` or `damaged`."""
    how: str
    why: str = ""


@dataclass(frozen=True)
class Completed:
    """The call has its reply."""
    end: int
    reply: str


@dataclass(frozen=True)
class GivenUp:
    """The call is not tried any more; its outcome is unknown or it had no effect. If it took effect, it gave the reply,
    unless that is not known either."""
    is_unknown: bool
    reply: str | None = None


@dataclass(frozen=True)
class Over:
    """The client makes no more calls."""


@dataclass
class Seat:
    """Where a client stands, and where its successor goes on if it is killed: the position of its next task;
    how often it has become a new client; and the begin of a call that was not finished, with whether an
    earlier try may have taken effect."""
    number: int
    position: int = 0
    incarnation: int = 0
    begin: int | None = None
    is_unknown: bool = False

    @property
    def client(self) -> int:
        return self.number + STRIDE * self.incarnation

    @property
    def token(self) -> str:
        return f"{self.number}-{self.position}"


@dataclass
class Recorder:
    """The record of one client."""
    seat: Seat
    policy: Policy
    mistake: Mistake | None = None
    calls: list[Call] = field(default_factory=list)
    counts: Counter = field(default_factory=Counter)
    notes: list[str] = field(default_factory=list)
    is_over: bool = False
    _line: str = ""
    _is_committing: bool = False

    def take(self, message: object) -> None:
        """Records a message of the client."""
        match message:
            case Began(position, begin, line):
                self.seat.position, self.seat.begin, self._line = position, begin, line
                self._is_committing = False
            case Committing():
                self._is_committing = True
            case Tried(how, why):
                self.counts[how] += 1
                self._is_committing = False
                self.seat.is_unknown |= how == "unknown"
                if why:
                    self.notes.append(f"{how}: {why}")
            case Completed(end, reply):
                self.calls.append(Call(self.seat.client, self.seat.begin, end, self._line, reply))
                self.counts["completed"] += 1
                self._next()
            case GivenUp(is_unknown, reply):
                self._give_up(is_unknown, reply)
            case Over():
                self.is_over = True

    def killed(self) -> None:
        """Records that the client was killed. A task that may have taken effect is tried again by a successor
        if the policy says so; one that certainly did not, always."""
        self.counts["killed"] += 1
        if self.seat.begin is None:
            return
        if self._is_committing and not is_read(self._line):
            self.seat.is_unknown = True
        self._is_committing = False
        if self.seat.is_unknown and not self.policy.retries:
            self._give_up(True)

    def _give_up(self, is_unknown: bool, reply: str | None = None) -> None:
        if is_unknown:
            self.counts["pending"] += 1
            if self.mistake is not Mistake.FORGET:
                self.calls.append(
                    Call(self.seat.client, self.seat.begin, None, self._line, reply, self.seat.token))
            if self.mistake is not Mistake.SAME_CLIENT:
                self.seat.incarnation += 1
        else:
            self.counts["given up"] += 1
        self._next()

    def _next(self) -> None:
        self.seat.position += 1
        self.seat.begin, self.seat.is_unknown = None, False
