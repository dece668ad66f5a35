"""The command line: which databases are run how, and what is printed."""

import argparse
import importlib
import importlib.util
import json
import os
import shutil
import signal
import sys
import tempfile
from collections import Counter
from collections.abc import Callable, Iterator
from datetime import date
from functools import partial
from pathlib import Path

from harness import disk, spaces
from harness.database import Database, Setting, program
from harness.faults import FAULTS, NO_FAULT
from harness.judge import NO_BOUND, Programs, Verdict
from harness.outcomes import CutShort, Missing
from harness.progress import Progress
from harness.records import Mistake, Policy
from harness.runs import READS, Plan, Result
from harness.summary import Summary
from harness.tasks import Workload
from harness.workers import Worker, side_by_side, workers

HOME = Path(__file__).resolve().parent.parent
ROOT = HOME.parent.parent
ALL, BOTH = "all", "both"
# Runs side by side: each has phases in which it waits, and a workload that keeps the processors busy.
JOBS = max(1, len(os.sched_getaffinity(0)) // 2)
# Marks in a page between which the headline stands, and the table of results.
HEADLINE, RESULTS = "headline", "results"


def databases() -> dict[str, Database]:
    """Returns the databases of the folder `servers` by name."""
    names = sorted(file.stem for file in (HOME / "servers").glob("[a-z]*.py"))
    return {name: importlib.import_module(f"servers.{name}").DATABASE for name in names}


def _settings_text() -> str:
    lines = ["databases, settings and their faults:"]
    for name, database in databases().items():
        for setting, options in database.settings.items():
            lines.append(f"  {name}:{setting}  {' '.join(options.promises)}")
    return "\n".join(lines)


def _positive(word: str) -> int:
    if not word.isdecimal() or int(word) < 1:
        raise argparse.ArgumentTypeError("a number of 1 or more is wanted")
    return int(word)


def read_options(arguments: list[str]) -> argparse.Namespace:
    """Reads the command line; ends the program if it asks for help or is wrong."""
    parser = argparse.ArgumentParser(
        prog="run", formatter_class=argparse.RawDescriptionHelpFormatter, epilog=_settings_text(),
        description="Runs the reservation tasks on databases while faults are injected, and has the proved\n"
        "judge decide whether the history of all calls is linearizable.")
    parser.add_argument("database", metavar="DATABASE[:SETTING]", help="a database, one of its settings, or 'all'")
    parser.add_argument("--fault", choices=[NO_FAULT, *FAULTS],
                        help="the fault of all runs (default: the runs of a setting take its faults in turn)")
    parser.add_argument("--policy", choices=[policy.value for policy in Policy], default=Policy.ASK.value,
                        help="what clients do after an unknown outcome (default: ask); 'again' is wrong on purpose")
    parser.add_argument("--runs", type=_positive, default=1, help="runs of each setting (default: 1)")
    parser.add_argument("--seed", type=_positive, default=1, help="seed of the first run (default: 1)")
    parser.add_argument("--seconds", type=float, default=5.0,
                        help="length of the workload, which goes on until a fault had an effect (default: 5)")
    parser.add_argument("--clients", type=_positive, default=4, help="number of clients (default: 4)")
    parser.add_argument("--jobs", type=_positive, default=JOBS,
                        help="runs side by side (default: half as many as there are processors, here %(default)s)")
    parser.add_argument("--lag", type=float, default=0.5,
                        help="seconds in which nothing reaches the standby before a failover (default: 0.5)")
    parser.add_argument("--reads", type=int, choices=range(101), default=READS, metavar="PERCENT",
                        help=f"how many of a hundred tasks only read (default: {READS})")
    parser.add_argument("--keep", type=Path, metavar="FOLDER", help="keeps histories, records and server logs")
    parser.add_argument("--table", type=Path, metavar="PAGE",
                        help="writes headline and results into a page; with --keep, of all runs that the folder keeps")
    parser.add_argument("--mistake", choices=[mistake.value for mistake in Mistake],
                        help="WRONG ON PURPOSE: tasks split in two transactions; a recorder that forgets pending"
                        " calls, takes the end before the commit, or goes on with a client after a pending call")
    parser.add_argument("--workload", choices=[*(workload.value for workload in Workload), BOTH],
                        default=Workload.RESERVATIONS.value,
                        help="what clients do: tasks of reservations, get, put and compare-and-set of single keys,"
                        " or a run of either (default: reservations)")
    parser.add_argument("--program", default=str(_own_program()), help="the proved program that draws the tasks (default: %(default)s)")
    parser.add_argument("--judge", default=str(_judge()),
                        help="the proved judge of both workloads (default: %(default)s)")
    options = parser.parse_args(arguments)
    try:
        _chosen(options.database)
    except ValueError as error:
        parser.error(str(error))
    return options


def _own_program() -> Path:
    """Returns the program of this checkout, or of this unpacked tarball."""
    return next((file for file in (ROOT / "vacation", ROOT / "bin/vacation") if file.exists()), ROOT / "vacation")


def _judge() -> Path:
    """Returns the judge of this checkout, or of this unpacked tarball."""
    return next((file for file in (ROOT / "judge", ROOT / "bin/judge") if file.exists()), ROOT / "judge")


def _chosen(word: str) -> list[tuple[str, Database, Setting]]:
    """Returns the settings that a word of the command line names."""
    name, _, wanted = word.partition(":")
    found = databases()
    if name != ALL and name not in found:
        raise ValueError(f"there is no database {name}")
    chosen = [(f"{one}:{setting}", database, options) for one, database in found.items()
              for setting, options in database.settings.items()
              if name in (ALL, one) and wanted in ("", setting)]
    if not chosen:
        raise ValueError(f"{name} has no setting {wanted}")
    return chosen


def _workloads(word: str) -> list[Workload]:
    """Returns the workloads that a word of the command line names."""
    return list(Workload) if word == BOTH else [Workload(word)]


def check_installed(database: Database) -> None:
    """Raises `Missing` unless a database can be run here."""
    packages = f"(Debian: apt-get install {' '.join(database.packages)})"
    for module in database.modules:
        if importlib.util.find_spec(module) is None:
            raise Missing(f"there is no Python module {module} {packages}")
    try:
        for name in database.programs:
            program(name)
        database.version()
    except Missing as missing:
        raise Missing(f"{missing} {packages}") from None
    if not database.is_embedded:
        spaces.check_private()


def check_rights(setting: Setting, fault: str) -> None:
    """Raises `Missing` unless a fault can be injected into a setting here."""
    if fault not in setting.promises:
        raise Missing("the setting has no such fault")
    needs = FAULTS[fault].needs if fault != NO_FAULT else None
    if needs and needs.disk:
        spaces.check_private()
        disk.check_rights()
    library = setting.environment.get("LD_PRELOAD")
    if library and not any(Path("/usr/lib").glob(f"*/{library}")):
        raise Missing(f"there is no library {library} (Debian: apt-get install libeatmydata1)")


def plans(options: argparse.Namespace) -> Iterator[Plan]:
    """Returns all runs that the options ask for, and reports once what is skipped."""
    skipped: set[str] = set()

    def is_skipped(what: str, check: Callable[[], None]) -> bool:
        try:
            check()
        except Missing as missing:
            if what not in skipped:
                print(f"{what} skipped: {missing}", flush=True)
            skipped.add(what)
        return what in skipped

    for number in range(options.runs):
        for name, database, setting in _chosen(options.database):
            faults = [options.fault] if options.fault else list(setting.promises)
            fault = faults[number % len(faults)]
            if is_skipped(name.partition(":")[0], partial(check_installed, database)):
                continue
            if is_skipped(f"{name} fault={fault}", partial(check_rights, setting, fault)):
                continue
            for workload in _workloads(options.workload):
                yield Plan(database, name, setting, fault, options.seed + number, Policy(options.policy),
                           Mistake(options.mistake) if options.mistake else None, options.seconds,
                           options.clients, options.lag, options.reads, workload)


def line_of(result: Result) -> str:
    """Returns the line of a run."""
    plan, counts = result.plan, Counter(result.record["counts"])
    injected = sum("effect" in fault for fault in result.record["faults"])
    more = f" mistake={plan.mistake.value}" if plan.mistake else ""
    more += " workload=keys" if plan.workload is Workload.KEYS else ""
    text = (f"{plan.name} fault={plan.fault} policy={plan.policy.value}{more} seed={plan.seed}"
            f" faults={injected} no-effect={len(result.record['faults']) - injected}"
            f" completed={counts['completed']} refused={counts['refused']} lost={counts['lost']}"
            f" pending={counts['pending']} verdict={result.verdict.value}")
    return text + (f" ({result.reason})" if result.reason else "")


def keep(result: Result, folder: Path) -> Path:
    """Copies what a run left to a folder, and returns its history there."""
    folder.mkdir(parents=True, exist_ok=True)
    plan = result.plan
    more = [plan.mistake.value] if plan.mistake else []
    more += [plan.workload.value] if plan.workload is Workload.KEYS else []
    prefix = "-".join([plan.name.replace(":", "-"), plan.fault, plan.policy.value, *more, str(plan.seed)])
    for file in result.history.parent.glob("run.*"):
        shutil.copyfile(file, folder / f"{prefix}{file.name.removeprefix('run')}")
    return folder / f"{prefix}.calls"


def summary_of(folder: Path) -> Summary:
    """Returns the summary of all runs whose records a folder keeps, in the order of settings and faults."""
    order = [f"{name}:{setting}" for name, database in databases().items() for setting in database.settings]
    records = [json.loads(file.read_text(encoding="utf-8")) for file in sorted(folder.glob("*.json"))]
    summary = Summary()
    faults = [*FAULTS, NO_FAULT]
    records.sort(key=lambda record: (order.index(record["database"]), faults.index(record["fault"])))
    for record in records:
        summary.add(record)
    return summary


def write_results(page: Path, summary: Summary, day: date) -> None:
    """Replaces the headline and the table between the marks of a page."""
    write_between(page, HEADLINE, summary.headline())
    write_between(page, RESULTS, summary.markdown(day))


def write_between(page: Path, mark: str, text: str) -> None:
    """Replaces the text between two marks of a page."""
    begins, ends = f"<!-- {mark}: begin -->", f"<!-- {mark}: end -->"
    before, begin, rest = page.read_text(encoding="utf-8").partition(begins)
    _, end, after = rest.partition(ends)
    if not begin or not end:
        raise CutShort(f"{page} has no marks {begins} and {ends}")
    page.write_text(f"{before}{begin}\n\n{text}\n{end}{after}", encoding="utf-8")


def _do(worker: Worker, plan: Plan, options: argparse.Namespace, progress: Progress) -> dict:
    """Has a worker do a run, prints the run's line, keeps what must be kept, and returns the record."""
    programs = _programs(options)
    about = f"{plan.name} {plan.fault} {plan.workload.value} seed {plan.seed}"
    result = worker.do(plan, programs, lambda text: progress.say(f"{about}: {text}"))
    lines = [line_of(result)]
    is_wanted = result.verdict in (Verdict.ILLEGAL, Verdict.DAMAGED)
    if options.keep or is_wanted:
        kept = keep(result, options.keep or _folder_beside(result.history.parent.parent))
        if is_wanted:
            lines += [f"  history: {kept}", f"  judge it: {' '.join(programs.judge(plan.workload))} < {kept}"]
            if plan.workload is Workload.RESERVATIONS:
                lines.append(f"  explain it: {ROOT / 'explain'} --blocks {NO_BOUND} {kept}")
    print("\n".join([*lines, ""]), end="", flush=True)  # at once, so that no run beside this one writes between
    shutil.rmtree(result.history.parent)
    return result.record


def _programs(options: argparse.Namespace) -> Programs:
    return Programs(options.program, options.judge)


def _folder_beside(folder: Path) -> Path:
    """Makes a folder for a history, which stays when the temporary folder goes."""
    return Path(tempfile.mkdtemp(prefix="vacation-history-", dir=folder.parent))


def main(arguments: list[str]) -> int:
    """Does all runs, and returns the status."""
    options = read_options(arguments)
    signal.signal(signal.SIGTERM, lambda *_: sys.exit(128 + signal.SIGTERM))
    folder = spaces.furnish(options.jobs)
    for workload in _workloads(options.workload):
        judge = _programs(options).judge(workload)[0]
        if not os.access(judge, os.X_OK):
            sys.exit(f"databases: there is no program at {judge}")
    summary, progress = Summary(), Progress()
    (folder / "templates").mkdir()
    chosen = list(plans(options))
    try:
        with workers(min(options.jobs, len(chosen)), folder) as started:
            for record in side_by_side(started, chosen, lambda worker, plan: _do(worker, plan, options, progress)):
                summary.add(record)
    except CutShort as cut_short:
        sys.exit(f"databases: {cut_short}")
    print(summary.text())
    if options.table:
        kept = summary_of(options.keep) if options.keep else summary
        write_results(options.table, kept, date.today())
    return summary.status
