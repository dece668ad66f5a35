"""The programs that the scripts of this folder run: `vacation`, which is their argument, or the one that the last build
left; and `judge`, which stands beside it in one folder, or in its own crate."""

import os
import sys

BUILT = os.path.join(os.path.dirname(os.path.realpath(__file__)), "../crates/vacation/out/vacation")


def vacation():
    """The reservation system."""
    return sys.argv[1] if len(sys.argv) > 1 else BUILT


def other(name, program=None):
    """Another program of the tree, of this name."""
    folder = os.path.dirname(os.path.realpath(program or vacation()))
    beside = os.path.join(folder, name)
    return beside if os.access(beside, os.X_OK) else os.path.join(folder, f"../../{name}/out/{name}")


def judge(program=None):
    """The judge of logs."""
    return other("judge", program)
