"""Texts of other formats, told by their first lines, and the commands that judge them."""

from __future__ import annotations

import re
from collections.abc import Callable
from itertools import islice
from pathlib import Path

from .tasks import BadLine, read_task

# Lines that are looked at, and the bytes of a line.
LOOKED_AT, MOST_BYTES = 20, 4_000

ATTEMPT = re.compile(r"\d+ \d+ \d+ (commit|abort)( [rw] \d+ \d+)*")
KEY_OPERATIONS = "get|put|delete|cas|append|put-if-absent|get-and-set|increment|txn|txn-get"
KEY_CALL = re.compile(rf'\d+ \d+ (\d+|-) ({KEY_OPERATIONS})( ("[!-~]*"|-|=|if|then|else|get))+ -> [!-~]+')


def _is_attempt(line: str) -> bool:
    # A long line is cut within an access, which is left out.
    whole = line if len(line) < MOST_BYTES else re.sub(r" [rw][ \d]*$", "", line)
    return ATTEMPT.fullmatch(whole) is not None


def _is_key_call(line: str) -> bool:
    return '"' in line and KEY_CALL.fullmatch(line) is not None


def _is_task_of_client(line: str) -> bool:
    client, _, task = line.partition(" ")
    try:
        return client.isdecimal() and read_task(task) is not None
    except BadLine:
        return False


FORMATS: tuple[tuple[Callable[[str], bool], str], ...] = (
    (_is_attempt, "This is a text of attempts, not of calls: 'judge attempts < LOG' judges it."),
    (_is_key_call, "This is a history of a key-value store: 'judge keys < LOG' judges it."),
    (_is_task_of_client, "This is a workload, tasks without replies: 'judge history --tasks LOG < HISTORY' checks a"
                         " history against it."))


def other_format(verdict: str, path: Path) -> list[str]:
    """A sentence on what a text is, if its first line is no call and its first lines are all of another format."""
    words = verdict.split(" ")
    if words[0] != "fault" or words[-1] != "1":
        return []
    with open(path, "rb") as file:
        lines = [line[:MOST_BYTES].decode("ascii", "replace").rstrip("\n") for line in islice(file, LOOKED_AT)]
    return [text for is_line, text in FORMATS if lines and all(map(is_line, lines))][:1]
