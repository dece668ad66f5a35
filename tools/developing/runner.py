"""Runs the commands behind ./dev: one way to look for a tool, and one way to run a command."""

from __future__ import annotations

import os
import shutil
import subprocess
import sys
from collections.abc import Sequence
from pathlib import Path

ROOT = Path(__file__).resolve().parent.parent.parent
PROGRAMS = ("vacation", "judge")
NOT_FOUND = 127
TOOLS = {
    "rt": "the Rattle toolchain is missing",
    "git": "git is missing",
    "bash": "bash is missing",
}


class Missing(Exception):
    """A command that is not on the PATH."""


def require(*commands: str) -> None:
    """Raises Missing unless all commands are on the PATH."""
    for command in commands:
        if shutil.which(command) is None:
            raise Missing(f"{TOOLS.get(command, 'a command is missing')}: no command '{command}' on the PATH")


def run(words: Sequence[str | Path], folder: Path = ROOT) -> int:
    """Runs a command with this process's streams, and returns its exit status."""
    try:
        return subprocess.run([str(word) for word in words], cwd=folder, check=False).returncode
    except KeyboardInterrupt:
        return 130


def python(script: str, arguments: Sequence[str | Path] = ()) -> int:
    """Runs a Python script of the tree, named from its root, and returns its exit status."""
    return run([sys.executable, "-B", ROOT / script, *arguments], Path(os.getcwd()))


def say(text: str) -> None:
    """Writes a line on standard error."""
    print(f"dev: {text}", file=sys.stderr, flush=True)
