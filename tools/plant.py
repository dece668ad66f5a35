#!/usr/bin/env python3
"""Tries the mutants of tests/plants, each in a copy of its crate, and tells what refuses it. Called by `./dev mutate`, and
by ./test for the mutants of the gate. tools/mutants.py says how the lists are written.

A mutant is shown if the prover leaves a goal of its body open: of a clause, of what a call requires, or of safety. A
mutant is not shown if the prover met a limit, or if only answers by hand no longer fit: if no other goals are open than
theirs, and the prover knows no values at which one of them is false. The contract may allow the body then. A result is
kept in tests/plants/CRATE.shown (tools/shown.py), and the mutant is tried again once a text has changed that the result
rests on."""

import argparse
import os
import re
import shutil
import signal
import subprocess
import sys
import tempfile
import time
from collections import Counter
from concurrent.futures import ThreadPoolExecutor, as_completed
from pathlib import Path

from build_program import Building, kit_module
from gate_builds import stand_on_gate
from mutants import batches, planted, read_lists, stale_labels
from rattle import ROOT
from shown import Shown, tree

PARTS = ("src", "specs", "proofs")
# How often a batch is checked without the answers by hand that no longer fit, and the memory that a prover may take.
MOST_ROUNDS, PROVER_BYTES = 6, 3 << 30

# What a try comes to.
SHOWN, HAND, LIMIT, ROW = "shown", "not shown: a proof by hand", "not shown: a limit", "refused by a row"
LEFT, SCRIPT, HARMLESS = "left to a row", "left to a script", "harmless"
PROVED, BAD, UNSURE = "SURVIVED", "DOES NOT COMPILE", "NOT TRIED"
FAILED = (PROVED, BAD, UNSURE)
# The words for those that are kept.
WORDS = {SHOWN: "shown", HAND: "hand", LIMIT: "limit", PROVED: "proved"}


def kit_for_beds():
    """The kit's module, which takes what the gate built for built, and looks at the texts of a crate once."""
    kit = kit_module()
    kit.guarded()
    stand_on_gate(kit)
    look, seen = kit.stop_on_text, set()

    def look_once(crate, verb):
        if crate.folder not in seen:
            look(crate, verb)
            seen.add(crate.folder)

    kit.stop_on_text = look_once
    return kit


def linked(folder, to):
    """Copies kept work; what is proved by links, since a check replaces such a file and changes none."""

    def copy(one, other):
        if one.endswith(".oantt"):
            try:
                return os.link(one, other)
            except OSError:
                pass
        return shutil.copy2(one, other)

    shutil.copytree(folder, to, symlinks=True, copy_function=copy)


class Bed:
    """A crate in which mutants are tried, over the builds of the libraries below it that the gate or the launcher left,
    and over what rt check kept of the crate itself, if it did."""

    def __init__(self, kit, name, jobs):
        os.chdir(ROOT / "crates" / name)
        self.kit = kit
        building = Building(kit, jobs, "plant")
        self.crate = building.program
        if building.left:
            left = ", ".join(below.name for below in building.left)
            print(f"plant: {name}: proving first what is not built of what stands here: {left}")
        if not building.prove_libraries():
            raise OSError(f"a library below {name} is not proved")
        for held in building.held:
            os.close(held)
        self.room = tempfile.TemporaryDirectory(prefix=f"plants-{os.getpid()}-")
        self.seed = f"{self.room.name}/seed"
        kept = ROOT / "crates" / name / "out" / "incremental"
        if kept.is_dir():
            linked(kept, self.seed)
        else:
            os.mkdir(self.seed)

    def try_batch(self, mutants):
        """What the tries of mutants in different bodies come to, and the seconds that they took. They are planted in one
        copy, and their functions alone are checked: a body is proved by the contracts of what it calls, so none changes
        what is said of another. Those whose functions do not fail so are tried alone."""
        began = time.monotonic()
        with tempfile.TemporaryDirectory(dir=self.room.name) as room:
            copy = Copy(self, room)
            tried = copy.try_together(mutants) if len(mutants) > 1 else []
            alone = [mutant for mutant in mutants if mutant not in [one for one, _, _ in tried]]
            tried += [(mutant, *copy.try_alone(mutant)) for mutant in alone]
        return tried, time.monotonic() - began

    def close(self):
        """Removes what it kept."""
        self.room.cleanup()


class Copy:
    """A copy of a crate in which one text after the other is checked, each over what the checks before it proved."""

    def __init__(self, bed, room):
        self.bed, self.room, self.changed = bed, room, set()
        for part in PARTS:
            if os.path.isdir(f"{bed.crate.folder}/{part}"):
                shutil.copytree(f"{bed.crate.folder}/{part}", f"{room}/{part}")
        linked(bed.seed, f"{room}/kept")

    def check(self, texts, functions):
        """Checks the copy with these texts in the place of the crate's own, and these functions of it alone, if any are
        given. Returns the status and what was said."""
        for path in self.changed - set(texts):
            shutil.copyfile(f"{self.bed.crate.folder}/{path}", f"{self.room}/{path}")
        for path, text in texts.items():
            Path(f"{self.room}/{path}").write_text(text)
        self.changed = set(texts)
        kit, flags = self.bed.kit, [word for name in functions for word in ("--only", name)]
        words = [*self.bed.crate.words(["--jobs", "1", *flags], keeps=False), "--incremental", f"{self.room}/kept"]
        how = {"cwd": self.room, "stdin": subprocess.DEVNULL, "stdout": subprocess.PIPE, "stderr": subprocess.STDOUT}
        for _ in range(2):
            ran = subprocess.run([*kit.guarded(), kit.RATTLE, "check", *words], errors="replace", check=False, **how)
            # (most likely for memory)
            if ran.returncode != -signal.SIGKILL:
                break
        return ran.returncode, ran.stdout

    def try_together(self, mutants):
        """What these mutants come to, without those of which one check of all their functions does not tell it. If
        answers by hand no longer fit, the functions are checked once more without these answers."""
        texts, dropped, tried, left = planted(mutants), set(), [], list(mutants)
        for _ in range(MOST_ROUNDS):
            status, said = self.check(texts, [name for mutant in left for name in mutant.functions])
            if status != 1 or any(map(is_unread, said.split("\n"))):
                break
            told, wanted, left = goals_by_function(said), left, []
            texts, now = self.without_answers(texts, said)
            for mutant in wanted:
                goals = [(f"{folder_of(name)}/Answers.antt", goal) for name in mutant.functions
                         for goal in told.get(name, [])]
                folders = tuple(f"./{folder_of(name)}/" for name in mutant.functions)
                by_hand = [line for line in said.split("\n") if line.startswith(folders) and BY_HAND.match(line)]
                shown = f"{', '.join(mutant.functions)}: {', '.join(goal for _, goal in goals)}"
                if any(goal not in dropped for goal in goals):
                    tried.append((mutant, SHOWN, [shown]))
                elif any(f"./{file}".startswith(folders) for file, _ in now):
                    left.append(mutant)
                elif goals:
                    tried.append((mutant, HAND, [f"{shown}, which wanted a proof by hand before"]))
                elif by_hand:
                    tried.append((mutant, HAND, by_hand))
            dropped |= now
            if not left:
                break
        return tried

    def try_alone(self, mutant):
        """What a try of the mutant comes to, and what shows it: first its functions alone, then the crate, unless no
        clause is meant to refuse it."""
        texts = mutant.texts()
        came_to, shown = self.try_texts(texts, mutant.functions) if mutant.functions else (UNSURE, [])
        if came_to == UNSURE or (came_to == PROVED and mutant.by.startswith("clause")):
            return self.try_texts(texts, [])
        return came_to, shown

    def try_texts(self, texts, functions):
        """The same by one check; where answers by hand no longer fit, once more without these."""
        status, said = self.check(texts, functions)
        came_to, shown = judged(status, said)
        texts, dropped = self.without_answers(texts, said)
        if came_to != HAND or not dropped:
            return came_to, shown
        came_to, shown = judged(*self.check(texts, functions))
        names = {name.strip(" !") for line in shown for name in line.split(": ", 1)[-1].split(",")}
        if came_to == SHOWN and names <= {name for _, name in dropped} and not any("!" in line for line in shown):
            return HAND, [f"{line}, which wanted a proof by hand before" for line in shown]
        return came_to, shown

    def without_answers(self, texts, said):
        """The texts without the answers by hand that no longer fit, and these answers: each with its file."""
        texts, dropped = dict(texts), set()
        for file, name in ANSWER.findall(said):
            text = texts.get(file) or Path(f"{self.bed.crate.folder}/{file}").read_text()
            texts[file] = re.sub(rf"(?ms)^pub {re.escape(name)} :.*?(?=^pub |^abbrev |\Z)", "", text)
            dropped.add((file, name))
        return texts, dropped


def folder_of(function):
    """The folder of a function's proof by hand, in its crate."""
    return f"proofs/{function.replace('::', '/')}"


GOALS = re.compile(r"^fn (\S+): (?:no proof|not proved): (?!it calls|it passes)(?:.*`search` did not prove (.*)|(.*))")
FALSE = re.compile(r"^note: \S+: .*\(`([^`]+)`\).*allow values at which this goal is false")
BY_HAND = re.compile(r"^\./(proofs/\S+\.antt):(\d+):\d+: error: (.*)")
ANSWER = re.compile(r"(?m)^\./(proofs/\S+/Answers\.antt):\d+:\d+: error: `([^`]+)`")
# A text that can't be read, and not one of which something is false: its error names no goal, or a name that is not there.
UNREAD = re.compile(r"(?:\./)?(?:src|specs)/\S+?:\d+:\d+: error: (?!`[^`]*`: )"
                    r"|(?:\./)?(?:src|specs)/\S+: error: .*(?:is not in scope|has no field|is no name|cannot continue)")
CODE = re.compile(r"\berror\[[\w-]+\]")
LIMITS = re.compile(r"antt ran out of (stack|the (steps|memory))|(outgrew the memory limit|stopped at the step limit) \(")


def is_unread(line):
    """Whether a line says that a text can't be read."""
    return UNREAD.match(line) or CODE.search(line)


def judged(status, said):
    """What a check of a mutant comes to, and what shows it: the goals that stayed open, by function, with a '!' where
    the check knows values at which the goal is false. (A change here that judges an earlier result otherwise raises
    JUDGING of tools/shown.py.)"""
    lines = said.rstrip("\n").split("\n")
    if status == 0:
        return PROVED, []
    unread = [line for line in lines if is_unread(line)]
    if unread:
        return BAD, unread[:2]
    if status == 3 and LIMITS.search(said):
        return LIMIT, [line for line in lines if LIMITS.search(line)][:1]
    if status != 1 or not re.match(r"logic=not-proved|only=", lines[-1]):
        return UNSURE, lines[-2:]
    false = {found[1] for found in map(FALSE.match, lines) if found}
    goals = []
    for found in filter(None, map(GOALS.match, lines)):
        names = re.findall(r"`([^`]+)`", found[2] or "")
        told = ", ".join(name + "!" * (name in false) for name in names) or (found[3] or "")[:120]
        goals.append((bool(names), f"{found[1].split('::', 1)[1]}: {told}"))
    by_hand = [f"{found[1]}:{found[2]}: {found[3][:120]}" for found in map(BY_HAND.match, lines) if found]
    if any(is_searched for is_searched, _ in goals):
        return SHOWN, [told for is_searched, told in goals if is_searched]
    if by_hand or any("expected a measure" in told or "expected an invariant" in told for _, told in goals):
        return HAND, by_hand or [told for _, told in goals]
    return (SHOWN, [told for _, told in goals]) if goals else (HAND, lines[-3:])


def goals_by_function(said):
    """The goals that stayed open, by function."""
    lines = said.rstrip("\n").split("\n")
    false = {found[1] for found in map(FALSE.match, lines) if found}
    told = {}
    for found in filter(None, map(GOALS.match, lines)):
        names = [name + "!" * (name in false) for name in re.findall(r"`([^`]+)`", found[2] or "")]
        told.setdefault(found[1].split("::", 1)[1], []).extend(names)
    return told


def tried_by_rows(mutant):
    """Runs the rows that must fail with the mutant, unproved, in a copy of the crates."""
    rows = re.match(r"row (\w+): ", mutant.by)[1]
    with tempfile.TemporaryDirectory(prefix=f"plants-{os.getpid()}-") as room:
        for file in ("crates.txt", "HANDLES"):
            shutil.copy(ROOT / file, room)
        for crate in (ROOT / "crates").iterdir():
            for part in (*PARTS, "data"):
                if (crate / part).is_dir():
                    shutil.copytree(crate / part, f"{room}/crates/{crate.name}/{part}")
        for path, text in mutant.texts().items():
            Path(f"{room}/crates/{mutant.crate}/{path}").write_text(text)
        how = {"cwd": f"{room}/crates/{rows}", "stdin": subprocess.DEVNULL, "errors": "replace"}
        ran = subprocess.run(["rt", "try", "--test"], capture_output=True, check=False, **how)
    said = ran.stdout + ran.stderr
    failed = re.findall(r"^test (\S+) \.\.\. FAILED", said, re.M)
    came_to = PROVED if ran.returncode == 0 else ROW if "test result: FAILED" in said else UNSURE
    return came_to, failed or said.strip().split("\n")[-3:]


def as_meant(mutant, came_to, shown, rows):
    """What a proved mutant is where no clause is meant to refuse it."""
    if came_to != PROVED:
        return came_to, shown
    if mutant.by.startswith("harmless"):
        return HARMLESS, []
    if mutant.by.startswith("script"):
        return SCRIPT, [mutant.by]
    if mutant.by.startswith("row"):
        return tried_by_rows(mutant) if rows else (LEFT, [mutant.by])
    return came_to, shown


class Report:
    """What the tries came to: kept for later runs, told, and counted by crate."""

    def __init__(self, mutants, options):
        self.options = options
        self.names = {crate: {m.name for m in mutants if m.crate == crate} for crate in {m.crate for m in mutants}}
        self.shown = {crate: Shown(crate) for crate in self.names}
        self.counts, self.seconds, self.tree = {}, Counter(), tree()

    def known(self, mutant):
        """Takes a mutant's result from an earlier run, if it still stands. Returns whether it did."""
        found = None if self.options.anew else self.shown[mutant.crate].of(mutant)
        if not found:
            return False
        came_to = next(kind for kind, word in WORDS.items() if word == found[0])
        meant, _ = as_meant(mutant, came_to, found[1], self.options.rows)
        if meant in FAILED:
            return False
        self.count(mutant, meant)
        return True

    def tell(self, mutant, came_to, shown):
        """Keeps a result, unless it is a fault or a text has changed since the run began, tells it and counts it."""
        meant, why = as_meant(mutant, came_to, shown, self.options.rows)
        if came_to in WORDS and meant not in FAILED and self.tree == tree():
            goal = "" if came_to == PROVED else (shown or [""])[0][:100]
            self.shown[mutant.crate].keep(mutant, WORDS[came_to], goal, self.names[mutant.crate])
        print(f"{mutant}: {meant}", flush=True)
        for line in why if self.options.goals else why[:3]:
            print(f"    {line}")
        if meant in FAILED:
            print(f"    by: {mutant.by}", flush=True)
        self.count(mutant, meant)

    def count(self, mutant, meant):
        """Counts an outcome."""
        self.counts.setdefault(mutant.crate, Counter())[meant] += 1

    def total(self):
        """The counts of all crates."""
        return sum(self.counts.values(), Counter())

    def table(self):
        """The counts of each crate, and the seconds of its tries."""
        kinds = [kind for kind in (SHOWN, HAND, LIMIT, ROW, LEFT, SCRIPT, HARMLESS, *FAILED) if self.total()[kind]]
        print("", f"| Crate | {' | '.join(kinds)} | Seconds |", f"|---|{'--:|' * (len(kinds) + 1)}", sep="\n")
        for crate, counts in [*sorted(self.counts.items()), ("all", self.total())]:
            seconds = self.seconds[crate] if crate != "all" else sum(self.seconds.values())
            print(f"| {crate} | {' | '.join(str(counts[kind]) for kind in kinds)} | {seconds:.0f} |")


def try_all(mutants, report, jobs):
    """Tries mutants in batches, as many at once as there are jobs, those of the largest crates first."""
    crates = {crate: [m for m in mutants if m.crate == crate] for crate in {m.crate for m in mutants}}
    beds, running, kit = {}, {}, kit_for_beds()
    with ThreadPoolExecutor(jobs) as pool:
        for crate, here in sorted(crates.items(), key=lambda one: -cost_of_crate(one[0])):
            print(f"plant: {crate}: {len(here)} mutants", flush=True)
            try:
                beds[crate] = Bed(kit, crate, jobs)
            except OSError as error:
                for mutant in here:
                    report.tell(mutant, UNSURE, [str(error)])
                continue
            for batch in batches(here, jobs if len(crates) == 1 else 1):
                running[pool.submit(beds[crate].try_batch, batch)] = crate
        for done in as_completed(running):
            tried, seconds = done.result()
            report.seconds[running[done]] += seconds
            for mutant, came_to, shown in tried:
                report.tell(mutant, came_to, shown)
    for bed in beds.values():
        bed.close()


def cost_of_crate(name):
    """What a crate costs, by its lines of code."""
    return sum(path.read_text().count("\n") for path in (ROOT / "crates" / name / "src").rglob("*.rt"))


def processors():
    """As many provers as RT_JOBS says, as for `rt ci`, or else as there are processors and memory for."""
    given = os.environ.get("RT_JOBS", "")
    if given.isdigit() and int(given):
        return int(given)
    free = int(re.search(r"MemAvailable:\s+(\d+)", Path("/proc/meminfo").read_text())[1]) << 10
    return max(1, min(len(os.sched_getaffinity(0)), free // PROVER_BYTES))


def asked_for(mutants, options):
    """The mutants of the crates and of the names given, or of the gate. Stops at a word that is neither."""
    for word in options.names:
        if not any(word in (m.crate, m.name, str(m)) for m in mutants):
            sys.exit(f"plant: {word} is no crate with mutants, and no mutant")
    if options.names:
        mutants = [m for m in mutants if {m.crate, m.name, str(m)} & set(options.names)]
    return [m for m in mutants if m.gate] if options.gate else mutants


def options_of(words):
    """The options of the command line."""
    parser = argparse.ArgumentParser(prog="./dev mutate", description=__doc__.split("\n\n")[1])
    parser.add_argument("names", nargs="*", metavar="CRATE|MUTANT", help="the mutants of a crate, or one of them")
    parser.add_argument("--all", action="store_true", help="all mutants; prints a table of the crates")
    parser.add_argument("--gate", action="store_true", help="the mutants that ./test tries, or those among the named")
    parser.add_argument("--anew", action="store_true", help="also those whose kept result still stands")
    parser.add_argument("--jobs", type=int, metavar="N", help="the number of provers (one a processor)")
    parser.add_argument("--rows", action="store_true", help="run the worked examples too, unproved, that must fail if a "
                        "mutant says 'by: row'")
    parser.add_argument("--goals", action="store_true", help="print each goal that stays open, not only the first ones")
    parser.add_argument("--check", action="store_true", help="only compare the lists with the tree")
    options = parser.parse_args(words)
    if not (options.names or options.all or options.gate or options.check):
        parser.error("name crates or mutants, or give --all, --gate or --check")
    return options


def main():
    """Status 0: none survived. 1: one did, or could not be tried, or the lists can't be read."""
    sys.stdout.reconfigure(line_buffering=True)
    options, began = options_of(sys.argv[1:]), time.monotonic()
    mutants, faults = read_lists()
    faults += stale_labels(mutants) if options.check else []
    if options.check or faults:
        told = f"plant: {len(mutants)} mutants, whose old texts stand once, by clauses, tests and scripts that are there"
        print("\n".join(faults) if faults else told)
        sys.exit(1 if faults else 0)
    report = Report(mutants, options)
    wanted = asked_for(mutants, options)
    left = [mutant for mutant in wanted if not report.known(mutant)]
    print(f"plant: {len(wanted)} mutants, of which {len(wanted) - len(left)} have a result that still stands")
    try_all(left, report, options.jobs or processors())
    total = report.total()
    if options.all:
        report.table()
    told = ", ".join(f"{number} {kind}" for kind, number in total.most_common())
    spent = f"{time.monotonic() - began:.0f} seconds, {sum(report.seconds.values()):.0f} of provers"
    print(f"plant: {len(left)} tried in {spent}; in all {told or 'none'}")
    failed = sum(total[kind] for kind in FAILED)
    if options.gate:
        # (as with rt ci: an edit that can't be read counts for nothing)
        failed = total[PROVED]
        print(f"{total.total() - sum(total[kind] for kind in FAILED)} passed, {failed} failed")
    sys.exit(1 if failed else 0)


if __name__ == "__main__":
    main()
