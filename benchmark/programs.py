"""The programs that are measured, and single runs of them."""

import os
import re
import shlex
import subprocess
import sys
import threading
import time
from pathlib import Path

ROOT = Path(__file__).resolve().parent.parent
# The program, where a clone has it once it is built, and where the unpacked tarball has it.
IS_CLONE = (ROOT / "crates.txt").exists()
PROGRAM = ROOT / ("crates/vacation/out/vacation" if IS_CLONE else "vacation")
# The longest that one run of one program may take, in seconds.
PATIENCE = 300
OURS = "vacation"
# What all programs have in common of a conflict's place: the numbers that they tell by these names.
PARTS = ("heads", "roots", "nodes", "uses", "stocks")
# The numbers that are told beside these and the conflicts by their kinds.
OTHERS = ("seconds", "tasks-per-second", "attempts", "attempts-per-task")


def give_up(why):
    sys.exit(f"bench: {why}")


def lines_of(words):
    """What a command writes, or nothing where it is missing or fails."""
    try:
        done = subprocess.run(words, capture_output=True, text=True, cwd=ROOT, check=True)
    except (OSError, subprocess.CalledProcessError):
        return []
    return done.stdout.splitlines()


def has_option(program, subcommand, option):
    return any(option in line for line in lines_of([program, subcommand, "--help"]))


def options_of(settings):
    return [word for name, value in settings.items() for word in (f"--{name}", str(value))]


def numbers_told(errors):
    """The numbers of a line 'seconds S tasks-per-second R attempts A ..' on standard error."""
    for line in errors.splitlines():
        words = line.split(" ")
        if words[0] == "seconds" and len(words) % 2 == 0:
            try:
                return dict(zip(words[::2], map(float, words[1::2])))
            except ValueError:
                break
    return {}


class Run:
    """What one run of a program told: the seconds of its clients, how many tasks were answered and
    given up, how many attempts that took and by which and where these met conflicts (where it tells them), the
    answers of each whole second (the same), and the report of what it left."""

    def __init__(self, tally, report, errors):
        words = tally.split(" ")
        counts = dict(zip(words[::2], map(int, words[1::2])))
        self.report = report
        self.answered, self.busy = counts["answered"], counts["busy"]
        told = numbers_told(errors)
        self.seconds = told.get("seconds")
        self.attempts = int(told["attempts"]) if "attempts" in told else None
        self.parts = [int(told[part]) for part in PARTS] if all(part in told for part in PARTS) else None
        self.kinds = {name: int(count) for name, count in told.items() if name not in (*PARTS, *OTHERS)}
        self.by_second = next((line.split(" ")[1:] for line in errors.splitlines()
                               if line.startswith("each-second")), [])

    def rate(self):
        """Answered tasks a second, in thousands."""
        return self.answered / self.seconds / 1000


# ---- pinning

def threads_of(pid):
    """The threads of a process and of its children, but the first of each."""
    found = []
    try:
        for task in os.listdir(f"/proc/{pid}/task"):
            if int(task) != pid:
                found.append(int(task))
            with open(f"/proc/{pid}/task/{task}/children", encoding="ascii") as children:
                for child in children.read().split():
                    found += threads_of(int(child))
    except OSError:
        pass
    return sorted(found)


class Pinner(threading.Thread):
    """Ties each client's thread of a run to a processor, one after the other, as soon as all of
    them are there. Where that is not allowed, or they are not seen, nothing is done."""

    processors = sorted(os.sched_getaffinity(0)) if hasattr(os, "sched_getaffinity") else []
    pinned, missed = 0, 0

    def __init__(self, process, clients):
        super().__init__(daemon=True)
        self.process, self.clients = process, clients

    def run(self):
        while self.processors and self.process.poll() is None:
            threads = threads_of(self.process.pid)
            if len(threads) >= self.clients:
                if self.pin(threads[:self.clients]):
                    Pinner.pinned += 1
                    return
                break
            time.sleep(0.002)
        Pinner.missed += 1

    def pin(self, threads):
        try:
            for place, thread in enumerate(threads):
                os.sched_setaffinity(thread, {self.processors[place % len(self.processors)]})
        except OSError:
            return False
        return True


def execute(words, stdin, environment, clients=None):
    """Runs a command, with so many clients pinned; its output and its errors."""
    with subprocess.Popen(words, stdin=stdin, stdout=subprocess.PIPE, stderr=subprocess.PIPE, text=True,
                          env=os.environ | environment) as process:
        pinner = Pinner(process, clients)
        if clients:
            pinner.start()
        try:
            output, errors = process.communicate(timeout=PATIENCE)
        except subprocess.TimeoutExpired:
            process.kill()
            give_up(f"{shlex.join(map(str, words))} took longer than {PATIENCE} seconds")
    if clients:
        pinner.join()
    if process.returncode != 0:
        give_up(f"{shlex.join(map(str, words))} ended with status {process.returncode}: "
                f"{output[-200:]}{errors[-200:]}")
    return output, errors


# ---- programs

class Ours:
    """The program, which draws its tasks itself, the same ones that it writes for the peers."""

    name = OURS

    def __init__(self, program, tries):
        self.program, self.tries = program, tries

    def command(self, settings):
        return [self.program, "load", *options_of(settings), "--tries", str(self.tries), "--stats"]

    def run(self, settings, _, pins=True):
        clients = settings["clients"] if pins else None
        output, errors = execute(self.command(settings), subprocess.DEVNULL, {}, clients)
        return Run(*output.splitlines(), errors)

    def history(self, settings, _):
        """The history of a run, and its report."""
        words = [word for word in self.command(settings) if word != "--stats"] + ["--history"]
        output, errors = execute(words, subprocess.DEVNULL, {})
        return output, errors.splitlines()[1]


# What a peer that draws is asked to write, to see whether it draws the program's tasks.
TRIED = {"clients": 2, "tasks": 50, "items": 5, "asks": 3, "reads": 40, "user": 70, "seed": 3, "blocks": 20}


class Peer:
    """A peer draws its tasks as the program does, or reads them on standard input."""

    def __init__(self, name, words, tries, environment=None):
        self.name, self.words, self.tries = name, words, tries
        self.environment = environment or {}
        self.draws = False

    def find_whether_it_draws(self, tried_tasks):
        """It does where it writes these tasks, which are those of the settings `TRIED`."""
        try:
            done = subprocess.run([*self.words, "--print", *options_of(TRIED)], stdin=subprocess.DEVNULL,
                                  capture_output=True, env=os.environ | self.environment, timeout=10)
            self.draws = done.returncode == 0 and done.stdout == tried_tasks
        except (OSError, subprocess.TimeoutExpired):
            self.draws = False

    def execute(self, settings, tasks, *more, pinned=None):
        words = [*self.words, "--tries", str(self.tries), *more]
        if tasks is None:
            return execute([*words, "--draw", *options_of(settings)], subprocess.DEVNULL, self.environment,
                           pinned)
        with open(tasks, "rb") as stdin:
            return execute([*words, "--blocks", str(settings["blocks"])], stdin, self.environment, pinned)

    def run(self, settings, tasks, pins=True):
        clients = settings["clients"] if pins else None
        output, errors = self.execute(settings, None if self.draws else tasks, pinned=clients)
        run = Run(*output.splitlines(), errors)
        if run.seconds is None:
            give_up(f"{self.name} tells no seconds on standard error")
        return run

    def history(self, settings, tasks):
        output, errors = self.execute(settings, tasks, "--history")
        return output, next(line for line in errors.splitlines() if line.startswith("cars="))


def judge_beside(program):
    """The program `judge` that stands beside the program, or that the last build of its tree left."""
    folder = Path(program).resolve().parent
    beside = folder / "judge"
    return beside if os.access(beside, os.X_OK) else folder.parent.parent / "judge/out/judge"


class Judge:
    """The judge of histories, held against the work."""

    def __init__(self, program):
        self.program = judge_beside(program)

    def want_legal(self, name, history, report, settings, tasks):
        words = [self.program, "history", "--given-order", "--blocks", str(settings["blocks"]), "--tasks", tasks]
        done = subprocess.run(words, input=history, capture_output=True, text=True, timeout=PATIENCE)
        with open(tasks, "rb") as lines:
            calls = sum(1 for _ in lines)
        verdict = done.stdout.splitlines()
        is_whole = verdict and verdict[0].startswith(f"legal calls={calls} ")
        if not is_whole or verdict[1:] != [report]:
            if verdict and verdict[0].startswith("illegal"):
                self.explain(name, history, settings)
            give_up(f"of {name} the judge says '{done.stdout.strip()}'; the work has {calls} calls, "
                    f"the report is '{report}'")

    def explain(self, name, history, settings):
        """Keeps a history that is illegal, and tells on standard error which of its calls contradict each other."""
        folder = ROOT / "benchmark/out/illegal"
        folder.mkdir(parents=True, exist_ok=True)
        log = folder / f"{re.sub(r'[^A-Za-z0-9]+', '-', name)}.log"
        log.write_text(history, encoding="ascii")
        words = [ROOT / "explain", log, "--blocks", str(settings["blocks"]), "--html", log.with_suffix(".html"),
                 "--program", self.program]
        print("bench: " + " ".join(map(str, words)), file=sys.stderr, flush=True)
        subprocess.run(words, stdout=sys.stderr, check=False)
