"""Namespaces of the harness: processes, mounts, networks and shared memory that the kernel removes when the
harness ends, however it ends.

The command is a guard outside of the namespaces, and the harness runs inside them. The guard makes the temporary
folder, ends everything inside if a signal asks it to end, and removes the folder. After SIGKILL of the guard the
kernel ends everything inside, and the folder stays. The next guard removes it."""

import fcntl
import os
import shutil
import signal
import socket
import struct
import subprocess
import sys
import tempfile
import time
from pathlib import Path

from harness.outcomes import Missing
from harness.processes import end_with_parent, wait_until

HOME = Path(__file__).resolve().parent.parent
# The Python for which Debian installs client libraries, and the oldest version that will do.
DEBIAN_PYTHON = "/usr/bin/python3"
OLDEST = (3, 10)
SPACES = ["--pid", "--fork", "--kill-child", "--mount", "--mount-proc", "--net", "--ipc"]
# Variables that tell the program inside whether it has namespaces, and its temporary folder.
MARK, FOLDER = "VACATION_DATABASES_SPACES", "VACATION_DATABASES_FOLDER"
PREFIX = "vacation-databases-"
# How old a folder without a lock must be before it is taken for a leftover, in seconds.
LEFTOVER_AGE = 60
# How long a trial of a program may take, in seconds.
PATIENCE = 20
SET_FLAGS, IS_UP = 0x8914, 1
# Signals that ask the command to end, and the most memory that the data folders of a run may fill.
ENDING = (signal.SIGTERM, signal.SIGINT, signal.SIGHUP)
GIGABYTES = 3
# The file that names the name servers.
RESOLVER = "/etc/resolv.conf"


def _succeeds(words: list[str]) -> bool:
    try:
        return subprocess.run(words, capture_output=True, timeout=PATIENCE, check=False).returncode == 0
    except (OSError, subprocess.TimeoutExpired):
        return False


def _python() -> str:
    """Returns Debian's Python, or this one if that one is missing or too old."""
    trial = f"import sys; sys.exit(sys.version_info < {OLDEST})"
    return DEBIAN_PYTHON if _succeeds([DEBIAN_PYTHON, "-c", trial]) else sys.executable


def _prefix() -> list[str]:
    """Returns the command that makes the namespaces, or none if it may not be done here."""
    user = [] if os.geteuid() == 0 else ["--user", "--map-current-user", "--keep-caps"]
    words = ["unshare", *user, *SPACES]
    return words if _succeeds([*words, "mount", "-t", "tmpfs", "tmpfs", "/dev/shm"]) else []


def enter(arguments: list[str]) -> int:
    """Runs the harness inside namespaces of its own, if it may have them, and returns its status."""
    guard = Guard()
    remove_leftovers()
    prefix, python = _prefix(), _python()
    with Folder() as folder:
        environment = os.environ | {MARK: "private" if prefix else "none", FOLDER: str(folder.path),
                                    "PYTHONPATH": str(HOME), "PYTHONDONTWRITEBYTECODE": "1"}
        return guard.run([*prefix, python, "-m", "harness", *arguments], environment, folder.lock)


class Guard:
    """Runs a command, which ends with this process and at signals that ask this process to end. (The signals are
    not passed on: `unshare` blocks them.)"""

    def __init__(self) -> None:
        self._asked: int | None = None
        self._child: subprocess.Popen | None = None
        for number in ENDING:
            signal.signal(number, self._end)

    def run(self, words: list[str], environment: dict[str, str], lock: int) -> int:
        """Runs a command, which holds a lock, to its end, and returns its status."""
        self._child = subprocess.Popen(words, env=environment, pass_fds=[lock], start_new_session=True,
                                       preexec_fn=end_with_parent(os.getpid()))
        if self._asked:
            _kill(self._child.pid)
        status = self._child.wait()
        if self._asked:
            return 128 + self._asked
        return status if status >= 0 else 128 - status

    def _end(self, number: int, _) -> None:
        self._asked = number
        if self._child is not None:
            _kill(self._child.pid)


def _kill(pid: int) -> None:
    """Kills the first process inside the namespaces, which `unshare` outlives until the kernel has ended all
    others. Without namespaces, or if that process does not run yet, kills the command itself."""
    try:
        is_unshare = Path(f"/proc/{pid}/comm").read_text(encoding="ascii").strip() == "unshare"
        children = Path(f"/proc/{pid}/task/{pid}/children").read_text(encoding="ascii").split()
        os.kill(int(children[0]) if is_unshare and children else pid, signal.SIGKILL)
    except OSError:
        pass  # the command has ended


def are_private() -> bool:
    """Returns whether this process has namespaces of its own."""
    return os.environ.get(MARK) == "private"


def check_private() -> None:
    """Raises `Missing` unless servers may be started: in namespaces that end with the harness."""
    if not are_private():
        raise Missing("servers need the right to make namespaces (unshare, of root or of users)")


def furnish(jobs: int) -> Path:
    """Prepares the namespaces for runs side by side, and returns the temporary folder, which is in memory."""
    own = Path(os.environ[FOLDER])
    if are_private():
        _mount_memory(str(own), GIGABYTES * jobs)
        # No name server is reached from here. Without this, each name that a server looks up takes five seconds.
        if os.path.exists(RESOLVER):
            subprocess.run(["mount", "--bind", os.devnull, RESOLVER], check=True, timeout=PATIENCE)
    return own


def inner() -> list[str]:
    """Returns the command that makes the namespaces of a worker inside those of the harness, or none if the harness
    has none."""
    return ["unshare", *SPACES] if are_private() else []


def furnish_inner() -> None:
    """Prepares the namespaces of a worker: folders that servers write to, and a loopback device."""
    if not are_private():
        return
    for folder in ("/dev/shm", "/run"):
        _mount_memory(folder, GIGABYTES)
    with socket.socket(socket.AF_INET, socket.SOCK_DGRAM) as any_socket:
        fcntl.ioctl(any_socket, SET_FLAGS, struct.pack("16sh22x", b"lo", IS_UP))


def _mount_memory(folder: str, gigabytes: int) -> None:
    os.makedirs(folder, exist_ok=True)
    subprocess.run(["mount", "-t", "tmpfs", "-o", f"size={gigabytes}g,mode=0711", "tmpfs", folder], check=True,
                   timeout=PATIENCE)


def _lock(folder: Path) -> int | None:
    """Returns the handle of a folder's lock, or none if another process holds it."""
    handle = os.open(folder / "lock", os.O_RDWR | os.O_CREAT, 0o600)
    try:
        fcntl.flock(handle, fcntl.LOCK_EX | fcntl.LOCK_NB)
    except OSError:
        os.close(handle)
        return None
    return handle


def remove_leftovers() -> None:
    """Removes the temporary folders of harnesses that were killed."""
    for folder in Path(tempfile.gettempdir()).glob(f"{PREFIX}*"):
        try:
            is_new = time.time() - folder.stat().st_mtime < LEFTOVER_AGE
            if is_new and not (folder / "lock").exists():
                continue
            handle = _lock(folder)
            if handle is not None:
                shutil.rmtree(folder, ignore_errors=True)
                os.close(handle)
        except OSError:
            continue  # another user's folder, or one that another start removes


class Folder:
    """A temporary folder, locked as long as this process or a holder of `lock` lives."""

    def __enter__(self) -> "Folder":
        self.path = Path(tempfile.mkdtemp(prefix=PREFIX))
        self.lock = _lock(self.path)
        self.path.chmod(0o711)  # users of servers go through it
        return self

    def __exit__(self, *_) -> None:
        # Without namespaces, a client that was killed a moment ago may still make a file.
        wait_until(self._is_removed, PATIENCE, 0.1)
        os.close(self.lock)

    def _is_removed(self) -> bool:
        shutil.rmtree(self.path, ignore_errors=True)
        return not self.path.exists()
