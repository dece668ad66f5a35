#!/usr/bin/env python3
"""Notes of which texts the libraries are that `rt ci` has just proved and built, so that the mutants of the gate are tried
over them. Called by ./test after `rt ci` passed, if no text has changed meanwhile.

`rt ci` leaves each library in crates/NAME/out/rlib without its own stamp, since a library built with its statements alone
fits only the builds that it stands on. So the note `gate` beside the library has a checksum of the texts, and of the
very builds below. Whatever builds the library anew removes the note with it."""

import hashlib
import os
import sys
import threading
from pathlib import Path

from build_program import kit_module, text_of

ROOT = Path(__file__).resolve().parent.parent


def note(crate):
    """The file of the note on a library."""
    return f"{crate.folder}/out/rlib/gate"


def what_it_is(crate):
    """A checksum of a library's texts and of the builds that it stands on. (The file `format` of a build has a checksum
    of its other files.)"""
    builds = [(below.name, text_of(f"{below.rlib}/format")) for below in crate.below()]
    return hashlib.sha256(repr((crate.stamp(), builds)).encode()).hexdigest()


def stand_on_gate(kit):
    """Has the kit's module take a library for built, too, if `rt ci` has built it of what stands here now. A stamp then
    reads the files of a library once, and not once for each way that leads to it."""
    own_check, own_stamp, memory = kit.Crate.is_built, kit.Crate.stamp, threading.local()

    def stamp(crate):
        seen = getattr(memory, "seen", None)
        if seen is None:
            memory.seen = {}
            try:
                return stamp(crate)
            finally:
                memory.seen = None
        if crate.folder not in seen:
            seen[crate.folder] = own_stamp(crate)
        return seen[crate.folder]

    def is_built(crate):
        return own_check(crate) or os.path.isdir(crate.rlib) and text_of(note(crate)) == what_it_is(crate)

    kit.Crate.stamp, kit.Crate.is_built = stamp, is_built


def main():
    """Status 0: each library of the tree is there and noted. 1: some are missing."""
    kit = kit_module()
    stand_on_gate(kit)
    libraries = [crate for crate in kit.crates_below(str(ROOT)) if not crate.is_program]
    missing = [crate.name for crate in libraries if not os.path.isdir(crate.rlib)]
    for crate in libraries:
        if crate.name not in missing:
            Path(note(crate)).write_text(what_it_is(crate), encoding="utf-8")
    if missing:
        print(f"gate: not built: {', '.join(missing)}")
    sys.exit(1 if missing else 0)


if __name__ == "__main__":
    main()
