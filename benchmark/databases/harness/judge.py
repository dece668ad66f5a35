"""Calls of the proved judges, bounded in time and memory."""

import subprocess
import time
from collections.abc import Callable
from dataclasses import dataclass
from enum import Enum
from pathlib import Path

from harness.outcomes import CutShort
from harness.tasks import Workload

# Blocks with which a history without a bound is judged.
NO_BOUND = 262144
# How long the judge may search, in seconds, and how much memory it may have, in kilobytes.
PATIENCE = 60.0
MEMORY = 6_000_000
# Lines that a verdict's record keeps.
MOST_LINES = 5


class Verdict(Enum):
    """How a run ends."""
    LEGAL = "legal"
    ILLEGAL = "illegal"
    UNDECIDED = "undecided"
    DAMAGED = "damaged"
    CUT_SHORT = "cut short"


@dataclass(frozen=True)
class Judgement:
    """What the judge says of a history: its first lines, and how long it took in seconds."""
    verdict: Verdict
    lines: list[str]
    seconds: float


@dataclass(frozen=True)
class Programs:
    """The proved programs: that which draws the tasks, and the judge."""
    vacation: str
    judge_program: str

    def judge(self, workload: Workload) -> list[str]:
        """Returns the command that judges a history on its standard input."""
        if workload is Workload.KEYS:
            return [self.judge_program, "keys"]
        return [self.judge_program, "history", "--blocks", str(NO_BOUND)]


def judge(words: list[str], history: Path, say: Callable[[str], None], patience: float = PATIENCE) -> Judgement:
    """Judges a history by a command, whose progress goes to `say`. Without a verdict in time, or in memory, the
    history is undecided."""
    bounded = ["sh", "-c", f'ulimit -v {MEMORY}; exec "$@"', "judge", *words]
    began = time.monotonic()
    with (open(history, "rb") as calls,
          subprocess.Popen(bounded, stdin=calls, stdout=subprocess.PIPE, stderr=subprocess.DEVNULL, text=True) as run):
        lines = _lines(run, began + patience, say)
    lines = lines or [f"undecided: no verdict within {patience:.0f} seconds"]
    said = lines[0].split(" ")[0].rstrip(":")
    if said == "touching":
        said = "undecided"
    if said not in ("legal", "illegal", "undecided"):
        raise CutShort(f"the judge does not read the history: {lines[0]}")
    return Judgement(Verdict(said), lines[:MOST_LINES], time.monotonic() - began)


def _lines(run: subprocess.Popen, limit: float, say: Callable[[str], None]) -> list[str]:
    """Returns the lines that a judge writes, or none if it is stopped at a reading of the clock."""
    while (left := limit - time.monotonic()) > 0:
        say(f"judging, for {left:.0f} more seconds at most")
        try:
            text, _ = run.communicate(timeout=min(left, 1))
            return text.splitlines() or [f"undecided: the judge ended with status {run.returncode}"]
        except subprocess.TimeoutExpired:
            continue
    run.kill()
    return []
