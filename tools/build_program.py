#!/usr/bin/env python3
"""Proves and builds the program of the crate in the current folder, and the libraries that it stands on: side by side,
those with the longest chain behind them first. Its argument is how many processors it may use; it prints a
line for each library that is done, and builds only what is not built already. A program that is built is run once,
on no input.

`rt all check` and `rt run` would do the same with one job a crate, so that most processors stand still
while the last crates of the chain are proved. Here the one with the longest chain behind it gets a second
job where a processor would stand still. No work is kept between runs, as `rt check` keeps it: over kept work
a second job gains nothing. A library is built with its statements alone, as the gate builds it, so that the
crates above load less; since other commands want its proofs too, it stands apart from theirs, in out/start/.
Crates, their sums and the words of each call are those of the kit's own module."""

import hashlib
import importlib.util
import os
import secrets
import subprocess
import sys
import tempfile
import time
from concurrent.futures import FIRST_COMPLETED, ThreadPoolExecutor, wait
from importlib.machinery import SourceFileLoader
from shutil import rmtree, which

MOST_JOBS = 4

# What a crate costs besides its lines of code, in such lines: what stands below it is loaded first.
LOADING = 100
# What it costs to compile and link the program, in such lines.
LINKING = 300
# Seconds that a line takes on one processor, as long as nothing is measured yet.
SECONDS_A_LINE = 0.14


def kit_module():
    """The module that the command rt stands on."""
    sys.dont_write_bytecode = True
    path = os.path.join(os.path.dirname(os.path.realpath(which("rt"))), "rtlib.py")
    loader = SourceFileLoader("rtlib", path)
    module = importlib.util.module_from_spec(importlib.util.spec_from_loader("rtlib", loader))
    sys.modules["rtlib"] = module
    loader.exec_module(module)
    return module


def text_of(path):
    """The text of a file, or none."""
    try:
        with open(path, encoding="utf-8") as file:
            return file.read()
    except FileNotFoundError:
        return ""


def cost_of(crate):
    """What a crate costs, by the lines of its code."""
    folder = f"{crate.folder}/src"
    return LOADING + sum(text_of(f"{folder}/{file}").count("\n") for file in os.listdir(folder))


class Building:
    """The libraries that are left to prove, those that are being proved, and the program above them."""

    def __init__(self, kit, processors, caller):
        self.kit, self.processors, self.caller = kit, processors, caller
        here = os.getcwd()
        self.program = kit.Crate(here, kit.root_above(here) or here, {})
        self.libraries = self.program.below()
        self.held = kit.lock([*self.libraries, self.program])
        for crate in [*self.libraries, self.program]:
            kit.stop_on_links(crate.folder)
            kit.stop_on_text(crate, "check")
        self.left = []
        if not all(crate.is_built() for crate in self.libraries):
            for crate in self.libraries:
                crate.rlib = f"{crate.folder}/out/start/{crate.name}.rlib"
            self.left = self.unbuilt()
        self.all, self.running, self.failed = len(self.left), {}, False
        self.began, self.lines_at_first = time.monotonic(), self.lines_left()

    def lines_left(self):
        """The lines that one processor after the other has before it until the program is built: an even share of all,
        or the longest chain."""
        waiting = {*self.left, *(crate for crate, _ in self.running.values())}
        chains = {}
        for crate in reversed([crate for crate in self.libraries if crate in waiting]):
            above = [chains[other] for other in chains if crate in other.below()]
            chains[crate] = cost_of(crate) + max(above, default=0)
        shared = sum(map(cost_of, waiting)) / self.processors
        return max([shared, *chains.values()]) + cost_of(self.program) + LINKING

    def minutes_left(self):
        """Tells how long the rest takes, by what was measured so far."""
        lines, done = self.lines_left(), self.lines_at_first - self.lines_left()
        pace = (time.monotonic() - self.began) / done if done > LOADING else SECONDS_A_LINE
        minutes = round(lines * pace / 60)
        return "about a minute" if minutes < 2 else f"about {minutes} minutes"

    @staticmethod
    def mark(crate):
        """The file that says of what a library was built."""
        return f"{os.path.dirname(crate.rlib)}/stamp"

    def sum(self, crate):
        """The sum of a library's text, and of the very builds that it stands on."""
        parts = [crate.stamp(), *[text_of(self.mark(below)) for below in crate.deps]]
        return hashlib.sha256(repr(parts).encode()).hexdigest()

    def unbuilt(self):
        """The libraries that are not built of what stands here now, those with the longest chain first."""
        left = []
        for crate in self.libraries:
            is_built = os.path.isdir(crate.rlib) and text_of(self.mark(crate)).startswith(self.sum(crate))
            if not is_built or set(crate.below()) & set(left):
                left.append(crate)
        chains = {crate: cost_of(crate) for crate in left}
        for crate in reversed(left):
            for below in set(crate.below()) & set(left):
                chains[below] = max(chains[below], cost_of(below) + chains[crate])
        return sorted(left, key=lambda crate: -chains[crate])

    def prove(self, crate, jobs):
        """Proves one library from nothing. Returns whether it is proved."""
        folder = os.path.dirname(crate.rlib)
        rmtree(folder, ignore_errors=True)
        os.makedirs(folder)
        words = [*crate.words(["--jobs", str(jobs)], keeps=False), "--statements"]
        stands_on = self.sum(crate)
        if crate.call(self.kit.RATTLE, "build", *words, "-o", crate.rlib) or self.sum(crate) != stands_on:
            return False
        with open(self.mark(crate), "w", encoding="utf-8") as mark:
            mark.write(f"{stands_on} {secrets.token_hex(8)}")
        return True

    def start(self, pool):
        """Starts what may be proved now, each on one processor. Where some would be left, the first, for which
        the longest chain waits, gets a second; and up to MOST_JOBS where nothing else is proved meanwhile. (A
        second job costs a fifth of a crate's time, which only a processor that would stand still gives back.)"""
        waits = set(self.left) | {crate for crate, _ in self.running.values()}
        ready = [crate for crate in self.left if not waits & set(crate.below())]
        free = self.processors - sum(jobs for _, jobs in self.running.values())
        for place, crate in enumerate(ready[:free]):
            most = 1
            if place == 0 and len(ready) < free:
                most = 2 if self.running or len(ready) > 1 else MOST_JOBS
            jobs = min(most, free)
            self.left.remove(crate)
            crate.out = tempfile.TemporaryFile("w+", errors="replace")
            self.running[pool.submit(self.prove, crate, jobs)] = crate, jobs

    def finish(self):
        """Waits for a library and says how it ended."""
        for future in wait(self.running, return_when=FIRST_COMPLETED).done:
            crate, _ = self.running.pop(future)
            if future.result():
                done = len(self.left) + len(self.running)
                print(f"{self.caller}: proved {crate.name}, {done} left, {self.minutes_left()}", flush=True)
            else:
                self.failed = True
                self.tell(crate)

    def tell(self, crate):
        """What the toolchain said of a crate that is not proved."""
        crate.out.seek(0)
        print(f"{self.caller}: {crate.name} is not proved\n{crate.out.read()}", flush=True)

    def announce(self):
        """Says how much there is to prove, and how long it takes."""
        print(f"{self.caller}: {self.all} of {len(self.libraries)} libraries are to be proved, {self.minutes_left()} "
              f"on {self.processors} processors", flush=True)

    def prove_libraries(self):
        """Returns whether all libraries are proved."""
        with ThreadPoolExecutor(self.processors) as pool:
            while (self.left and not self.failed) or self.running:
                if not self.failed:
                    self.start(pool)
                self.finish()
        return not self.failed

    def link(self):
        """Proves, compiles and links the program. Returns whether that could be done."""
        program, kit = self.program, self.kit
        made = f"out/{program.name}"
        os.makedirs("out", exist_ok=True)
        program.out = tempfile.TemporaryFile("w+", errors="replace")
        jobs = min(MOST_JOBS, self.processors)
        words = ["--target", "x86_64-unknown-linux-gnu", "--toolchain", f"{kit.KIT}/toolchain"]
        words += ["-o", f"{made}.new", f"{made}.o", f"{kit.KIT}/c/libos_c.a", f"{kit.KIT}/c/liblibc_c.a"]
        if program.compile(["--jobs", str(jobs)], f"{made}.o") or program.call(f"{kit.KIT}/bin/rattle-link", *words):
            self.tell(program)
            return False
        words = ["run"] if program.name == "vacation" else []
        ran = subprocess.run([f"{made}.new", *words], stdin=subprocess.DEVNULL, stdout=subprocess.DEVNULL, check=False)
        if ran.returncode == 0:
            os.replace(f"{made}.new", made)
        return ran.returncode == 0


def main():
    """Status 0: the program is built. 1: something is not proved. 3: the kit's module is another than the
    one known here."""
    try:
        kit = kit_module()
        kit.guarded()
        building = Building(kit, max(1, int(sys.argv[1])), os.path.basename(os.getcwd()))
        building.announce()
    except (AttributeError, ImportError, OSError, TypeError) as fault:
        print(f"{os.path.basename(os.getcwd())}: {fault}", flush=True)
        sys.exit(3)
    sys.exit(0 if building.prove_libraries() and building.link() else 1)


if __name__ == "__main__":
    main()
