#!/usr/bin/env python3
"""Proves one crate, which is its first argument, as rt check does, over the builds of the libraries below it
that ./vacation leaves in out/start/; proves those first that are missing, or older than their text. The
other arguments go to rt check. It says what it does."""

import os
import sys
import time

from build_program import Building, kit_module

ROOT = os.path.dirname(os.path.dirname(os.path.abspath(__file__)))


def say(text):
    """Says what is done."""
    print(f"check: {text}", flush=True)


def main():
    name, flags = sys.argv[1], sys.argv[2:]
    os.chdir(f"{ROOT}/crates/{name}")
    if "--jobs" not in flags:
        flags += ["--jobs", str(os.cpu_count() or 1)]
    processors = max(1, int(flags[flags.index("--jobs") + 1]))
    try:
        kit = kit_module()
        kit.guarded()
        building = Building(kit, processors, "check")
        crate, left = building.program, [below.name for below in building.left]
    except (AttributeError, ImportError, OSError, TypeError) as fault:
        say(f"{fault}; rt check alone, which may prove the libraries below it again")
        os.execvp("rt", ["rt", "check", *flags])
    there = len(building.libraries) - len(left)
    say(f"{name} stands on {len(building.libraries)} libraries of this repository; {there} are built")
    if left:
        say(f"{len(left)} are not built of what stands here now, and are proved first: {', '.join(left)}")
    if not building.prove_libraries():
        sys.exit(1)
    say(f"proving {name}")
    began = time.monotonic()
    status = crate.check(flags)
    said = "done, as the last lines above say" if status == 0 else "not proved"
    say(f"{name}: {said}; {time.monotonic() - began:.0f} seconds")
    sys.exit(status)


main()
