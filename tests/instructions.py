#!/usr/bin/env python3
"""Counts the instructions of a task, by one client, in each setting of the benchmark, and compares
them with the most that a task may take: how far the compiler inlines a body depends on code that has
nothing to do with the body, and no proof sees it. A count is that of a run of 2,001 tasks less that
of a run of one, of the client's thread alone, by valgrind's callgrind; without valgrind the script
says that it skips. Its argument is the program; with none it is the one that the last build left."""

import os
import shutil
import subprocess
import sys
import tempfile
from concurrent.futures import ThreadPoolExecutor
from pathlib import Path

ROOT = Path(__file__).resolve().parent.parent
sys.dont_write_bytecode = True
sys.path.insert(0, str(ROOT / "benchmark"))
from measure import SETTINGS
from programs import options_of

# The most instructions of a task, by setting.
MOST = {
    "large": 7_040,
    "crowded": 7_710,
    "defaults": 6_070,
    "apart": 6_045,
    "readers": 4_055,
}
TASKS = 2_000
# Enough for a run under callgrind on a busy machine, in seconds.
PATIENCE = 600


def counted(program, setting, tasks):
    """Instructions of the client's thread, which is each thread but the first."""
    with tempfile.TemporaryDirectory() as folder:
        words = ["valgrind", "--tool=callgrind", "--separate-threads=yes", f"--callgrind-out-file={folder}/run",
                 program, "load", "--clients", "1", "--tasks", str(tasks), *options_of(SETTINGS[setting])]
        subprocess.run(words, check=True, capture_output=True, timeout=PATIENCE)
        files = [file for file in Path(folder).iterdir() if not file.name.endswith("-01")]
        return sum(int(line.split()[1]) for file in files
                   for line in file.read_text(encoding="utf-8").splitlines() if line.startswith("totals: "))


def main():
    program = sys.argv[1] if len(sys.argv) > 1 else str(ROOT / "crates/vacation/out/vacation")
    if shutil.which("valgrind") is None:
        print("instructions: skipped: valgrind is not installed")
        return
    runs = [(setting, tasks) for setting in MOST for tasks in (1, TASKS + 1)]
    with ThreadPoolExecutor(os.cpu_count()) as pool:
        counts = dict(zip(runs, pool.map(lambda run: counted(program, *run), runs)))
    failed = False
    for setting, most in MOST.items():
        task = (counts[setting, TASKS + 1] - counts[setting, 1]) / TASKS
        print(f"instructions: {setting}: {task:,.0f} a task, of at most {most:,}")
        failed = failed or task > most
    sys.exit(failed)


main()
