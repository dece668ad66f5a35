"""A file system that can lose its power: writes that were not synced are then gone.

The loss is ext4's shutdown request without a flush of its journal (as in xfstests) and a new mount, which
replays the journal. Not modelled: torn sectors, disks that lie, and the loss of data that the kernel had
written back early. So what is lost is a lower bound."""

import fcntl
import os
import struct
import subprocess
from pathlib import Path

from harness.database import program
from harness.outcomes import CutShort, Missing, NoEffect
from harness.processes import wait_until

SHUTDOWN_REQUEST = (2 << 30) | (4 << 16) | (ord("X") << 8) | 125
WITHOUT_FLUSH = 2
# Size of the file system, whose file is sparse.
MEGABYTES = 512
# How long the file system may take to be unmounted, and each program that works on it, in seconds.
PATIENCE = 20
# Bytes of the file by which the loss is checked.
WITNESS = b"not synced\n" * 1000


def check_rights() -> None:
    """Raises `Missing` unless file systems can be mounted."""
    if os.geteuid() != 0 or not os.path.exists("/dev/loop-control"):
        raise Missing("the fault 'power' needs root and loop devices")
    for name in ("mkfs.ext4", "mount", "umount", "losetup"):
        program(name)


def _run(*words: str) -> None:
    done = subprocess.run(words, capture_output=True, text=True, timeout=PATIENCE, check=False)
    if done.returncode != 0:
        raise Missing(f"the fault 'power' needs file systems on loop devices: {done.stderr.strip()[:200]}")


class Disk:
    """An ext4 file system in a file beside the folder at which it is mounted."""

    def __init__(self, folder: Path):
        check_rights()
        self._folder, self._image = folder, folder.with_suffix(".image")
        with open(self._image, "wb") as file:
            file.truncate(MEGABYTES << 20)
        _run(program("mkfs.ext4"), "-q", "-F", str(self._image))
        self._mount()
        (self._folder / "synced").write_bytes(WITNESS)

    def sync(self) -> None:
        """Syncs everything: the setup phase survives each loss of power."""
        _run("sync", "-f", str(self._folder))

    def off(self) -> None:
        """Cuts the power: from now on each access fails."""
        (self._folder / "unsynced").write_bytes(WITNESS)
        handle = os.open(self._folder, os.O_RDONLY)
        try:
            fcntl.ioctl(handle, SHUTDOWN_REQUEST, struct.pack("I", WITHOUT_FLUSH))
        finally:
            os.close(handle)

    def on(self) -> str:
        """Restores the power, and returns what was lost. Raises `NoEffect` if bytes that were not synced are
        still there."""
        self._unmount()
        self._mount()
        unsynced = self._folder / "unsynced"
        if unsynced.exists() and unsynced.read_bytes() == WITNESS:
            raise NoEffect("the loss of power lost no bytes that were not synced")
        if (self._folder / "synced").read_bytes() != WITNESS:
            raise CutShort("the loss of power lost bytes that were synced")
        return f"{len(WITNESS)} bytes that were not synced are gone, and as many that were synced are there"

    def remove(self) -> None:
        """Unmounts and removes the file system."""
        self._unmount()
        self._image.unlink()

    def _mount(self) -> None:
        _run("mount", "-o", "loop", str(self._image), str(self._folder))

    def _unmount(self) -> None:
        """Unmounts, and checks that no other mount keeps the file system."""
        words = ["umount", str(self._folder)]
        if not wait_until(lambda: _succeeds(words), PATIENCE, 0.05):
            raise CutShort("the disk is in use")
        if not wait_until(self._is_released, PATIENCE, 0.02):
            raise CutShort("the disk is still mounted somewhere")

    def _is_released(self) -> bool:
        done = subprocess.run(["losetup", "-j", str(self._image)], capture_output=True, timeout=PATIENCE,
                              check=False)
        return not done.stdout


def _succeeds(words: list[str]) -> bool:
    return subprocess.run(words, capture_output=True, timeout=PATIENCE, check=False).returncode == 0
