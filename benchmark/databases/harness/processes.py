"""Processes by id, users of servers, and waits that end."""

import ctypes
import os
import pwd
import signal
import subprocess
import time
from collections.abc import Callable, Iterable
from pathlib import Path

from harness.outcomes import CutShort, Missing

# How long a signal may take to be obeyed, in seconds.
SIGNAL_PATIENCE = 10.0
# The request of prctl(2) that sets the signal at the death of the parent.
SET_DEATH_SIGNAL = 1


def wait_until(holds: Callable[[], bool], seconds: float, step: float = 0.01) -> bool:
    """Waits until a condition holds, and returns whether it did in time."""
    limit = time.monotonic() + seconds
    while not holds():
        if time.monotonic() > limit:
            return False
        time.sleep(step)
    return True


def _status(pid: int) -> list[str]:
    """Returns the fields of a process behind its name, or none if it has ended."""
    try:
        return Path(f"/proc/{pid}/stat").read_text(encoding="ascii", errors="replace").rsplit(")", 1)[1].split()
    except OSError:
        return []


def family(pid: int) -> list[int]:
    """Returns a process and all its descendants, parents first."""
    children: dict[int, list[int]] = {}
    for entry in os.listdir("/proc"):
        if entry.isdigit() and (fields := _status(int(entry))):
            children.setdefault(int(fields[1]), []).append(int(entry))
    found = [pid]
    for one in found:
        found += children.get(one, [])
    return found


def send(pids: Iterable[int], number: int) -> None:
    """Sends a signal to processes; those that have ended are skipped."""
    for pid in pids:
        try:
            os.kill(pid, number)
        except ProcessLookupError:
            pass


def has_ended(pid: int) -> bool:
    """Returns whether a process has ended (it may still be a zombie)."""
    fields = _status(pid)
    return not fields or fields[0] == "Z"


def is_stopped(pid: int) -> bool:
    """Returns whether a process is stopped, or has ended."""
    fields = _status(pid)
    return not fields or fields[0] in "TtZ"


def kill(pids: list[int]) -> None:
    """Ends processes by SIGKILL, and waits for their end."""
    send(pids, signal.SIGKILL)
    if not wait_until(lambda: all(map(has_ended, pids)), SIGNAL_PATIENCE):
        raise CutShort("a process outlived SIGKILL")


def stop(pids: list[int]) -> None:
    """Stops processes, and waits until they stand."""
    send(pids, signal.SIGSTOP)
    if not wait_until(lambda: all(map(is_stopped, pids)), SIGNAL_PATIENCE):
        raise CutShort("a process did not obey SIGSTOP")


def go_on(pids: list[int]) -> None:
    """Lets stopped processes go on, children first."""
    send(reversed(pids), signal.SIGCONT)


def end_with_parent(parent: int) -> Callable[[], None]:
    """Returns what a new process calls to be killed when the thread that has started it ends."""
    libc = ctypes.CDLL(None, use_errno=True)

    def obey() -> None:
        libc.prctl(SET_DEATH_SIGNAL, signal.SIGKILL)
        if os.getppid() != parent:
            os._exit(1)

    return obey


def as_user(name: str | None) -> dict:
    """Returns the arguments of subprocess with which root runs a program as another user."""
    if name is None or os.geteuid() != 0:
        return {}
    try:
        user = pwd.getpwnam(name)
    except KeyError:
        raise Missing(f"there is no user {name}, and root may not run its server") from None
    return {"user": user.pw_uid, "group": user.pw_gid, "extra_groups": []}


def give(folder: Path, name: str | None) -> None:
    """Makes a folder belong to a server's user, if root runs the harness."""
    user = as_user(name)
    if user:
        os.chown(folder, user["user"], user["group"])


def run_as(name: str | None, words: list[str], seconds: float) -> None:
    """Runs a program to its end as a server's user; if it fails, its last line is the reason."""
    try:
        done = subprocess.run(words, stdin=subprocess.DEVNULL, capture_output=True, text=True, cwd="/",
                              timeout=seconds, check=False, **as_user(name))
    except subprocess.TimeoutExpired:
        raise CutShort(f"{words[0]} took longer than {seconds:.0f} seconds") from None
    if done.returncode != 0:
        last = (done.stderr.strip() or done.stdout.strip() or "no message").splitlines()[-1]
        raise CutShort(f"{words[0]} failed: {last}")
