"""The summary of all runs: a row for each case, and whether its promise was kept."""

from collections import Counter
from collections.abc import Sequence
from dataclasses import dataclass, field
from datetime import date

from harness.database import Strength
from harness.judge import Verdict
from harness.records import Policy
from harness.tasks import Workload

# Status of the harness: everything as promised; a promise broken or a mistake not found; nothing to say, since
# everything was skipped or cut short.
FINE, WRONG, NOTHING = 0, 1, 3


@dataclass(frozen=True, order=True)
class Case:
    """A setting under a fault, with a policy and perhaps a mistake, and perhaps another workload."""
    name: str
    fault: str
    policy: str
    mistake: str
    workload: str = ""

    @property
    def clients(self) -> str:
        """What the clients do."""
        return " ".join(filter(None, [self.policy, self.mistake, self.workload]))

    @property
    def setting(self) -> str:
        """The setting for a page, with what differs from the clients' default."""
        more = [word for word in (self.policy, self.mistake) if word and word != Policy.ASK.value]
        return " ".join([f"`{self.name.partition(':')[2]}`", *more])


@dataclass
class Row:
    """The runs of a case."""
    case: Case
    strength: Strength
    source: str
    versions: set[str] = field(default_factory=set)
    verdicts: Counter = field(default_factory=Counter)
    counts: Counter = field(default_factory=Counter)

    def add(self, record: dict) -> None:
        """Counts a run."""
        self.versions.add(record["version"])
        self.verdicts[Verdict(record["verdict"])] += 1
        self.counts += Counter(record["counts"])

    @property
    def runs(self) -> int:
        """The number of all runs."""
        return sum(self.verdicts.values())

    @property
    def found(self) -> int:
        """The number of runs that show a mistake."""
        return self.verdicts[Verdict.ILLEGAL] + self.verdicts[Verdict.DAMAGED]

    @property
    def judged(self) -> int:
        """The number of runs with a verdict."""
        return self.verdicts[Verdict.LEGAL] + self.found

    @property
    def is_wrong(self) -> bool:
        """True if a promise was broken, or a mistake on purpose was never found."""
        return self.found > 0 if self.strength is Strength.KEPT else self.strength is Strength.WRONG and not self.found

    @property
    def told(self) -> str:
        """The verdicts for a page. One judged run is told as one run."""
        legal, judged = self.verdicts[Verdict.LEGAL], self.verdicts[Verdict.LEGAL] + self.verdicts[Verdict.ILLEGAL]
        words = f"{legal} of {judged}" if judged != 1 else "one legal" if legal else "one illegal"
        others = [f"{self.verdicts[verdict]} {verdict.value}"
                  for verdict in (Verdict.UNDECIDED, Verdict.DAMAGED, Verdict.CUT_SHORT) if self.verdicts[verdict]]
        return ", ".join([f"{self.case.workload} {words}".lstrip(), *others])

    @property
    def conclusion(self) -> str:
        """What the runs say about the case."""
        if self.strength is Strength.WRONG:
            return "NOT FOUND" if self.is_wrong else "found"
        if self.is_wrong:
            return "BROKEN"
        if not self.judged:
            return "no verdict"
        return "kept" if self.strength is Strength.KEPT else "-"


@dataclass
class Summary:
    """The rows of all cases, in the order of their first runs."""
    rows: dict[Case, Row] = field(default_factory=dict)

    def add(self, record: dict) -> None:
        """Counts a run, of which the record of module `runs` is given."""
        workload = record.get("workload", Workload.RESERVATIONS.value)
        case = Case(record["database"], record["fault"], record["policy"], record["mistake"] or "",
                    "" if workload == Workload.RESERVATIONS.value else workload)
        self.rows.setdefault(case, Row(case, Strength(record["promise"]), record["source"])).add(record)

    @property
    def status(self) -> int:
        """The status with which the harness ends."""
        if any(row.is_wrong for row in self.rows.values()):
            return WRONG
        judged = [row for row in self.rows.values() if row.conclusion != "no verdict"]
        return FINE if judged else NOTHING

    def text(self) -> str:
        """Returns the table for the terminal."""
        titles = ("setting", "fault", "policy", "manual", *(verdict.value for verdict in Verdict), "")
        lines = [titles]
        for row in self.rows.values():
            counts = [str(row.verdicts[verdict]) for verdict in Verdict]
            lines.append((row.case.name, row.case.fault, row.case.clients, row.strength.value, *counts, row.conclusion))
        widths = [max(map(len, column)) for column in zip(*lines)]
        return "\n".join("  ".join(word.ljust(width) for word, width in zip(line, widths)).rstrip()
                         for line in lines)

    def headline(self) -> str:
        """Returns the first sentences of docs/DATABASES.md: the runs of all cases, and what they came to."""
        rows = list(self.rows.values())
        runs, calls = sum(row.runs for row in rows), sum(row.counts["completed"] for row in rows)
        settings = {row.case.name for row in rows}
        servers = {name.partition(":")[0] for name in settings}
        kept = [row for row in rows if row.strength is Strength.KEPT]
        wrong = [row for row in rows if row.strength is Strength.WRONG]
        broken, missed = (sum(row.is_wrong for row in some) for some in (kept, wrong))
        return (f"**{_counted(runs, 'run')}, {_counted(calls, 'completed call')},"
                f" {_counted(len(settings), 'setting')} of {_counted(len(servers), 'database')}."
                f" {f'Broken promises: {broken}' if broken else 'No documented promise was broken'},"
                f" in {_counted(len(kept), 'case')} and {_counted(sum(row.judged for row in kept), 'run')}."
                f" {f'Planted mistakes not found: {missed}' if missed else 'Every planted mistake was found'},"
                f" in {sum(row.found for row in wrong)} of {_counted(sum(row.judged for row in wrong), 'run')}.**\n")

    def markdown(self, day: date) -> str:
        """Returns the results of docs/DATABASES.md: for each database a matrix of its settings by faults."""
        lines = [f"Made on {day.day} {day:%B %Y} by `benchmark/databases/run`."]
        servers = dict.fromkeys(case.name.partition(":")[0] for case in self.rows)
        for server in servers:
            rows = [row for row in self.rows.values() if row.case.name.partition(":")[0] == server]
            lines += ["", *_matrix(server, rows)]
        return "\n".join(lines) + "\n"


def _counted(number: int, name: str) -> str:
    return f"{number:,} {name}" + ("" if number == 1 else "s")


def _matrix(server: str, rows: Sequence[Row]) -> list[str]:
    """Returns the lines of a database's matrix: settings down, faults across."""
    versions = sorted(set().union(*(row.versions for row in rows)))
    faults = list(dict.fromkeys(row.case.fault for row in rows))
    lines = [f"| {server} {', '.join(versions)} | {' | '.join(faults)} | Calls |",
             "|---|" + "---|" * len(faults) + "--:|"]
    for setting in dict.fromkeys(row.case.setting for row in rows):
        of_setting = [row for row in rows if row.case.setting == setting]
        cells = [_cell([row for row in of_setting if row.case.fault == fault]) for fault in faults]
        calls = sum(row.counts["completed"] for row in of_setting)
        lines.append(f"| {setting} | {' | '.join(cells)} | {calls:,} |")
    return lines


def _cell(rows: Sequence[Row]) -> str:
    """Returns what came of the promise of a setting under a fault, and the verdicts on each workload."""
    if not rows:
        return ""
    conclusions = dict.fromkeys("less" if row.conclusion == "-" else row.conclusion for row in rows)
    told, source = ", ".join(conclusions), rows[0].source
    return f"{f'[{told}]({source})' if '://' in source else told}: {'; '.join(row.told for row in rows)}"
