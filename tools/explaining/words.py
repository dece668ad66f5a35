"""Calls, replies, states and steps in words, for the text, the page and the picture."""

from __future__ import annotations

from dataclasses import dataclass

from .findings import Finding
from .history import History
from .levels import IN_TIME, LEVELS, STATEMENTS, Step
from .model import Row, State, booked_item, is_item
from .names import MOST_IN_ALL_ORDERS, row_text
from .reduction import LEAST_STAND_IN, is_stand_in, rank
from .tasks import KINDS, Call, Item, Task, is_probe, item_text, read_trip, read_update

MOST_ROWS = 3
ENTRIES_IN_WORDS = 3


def duration(nanoseconds: int) -> str:
    for unit, size in (("s", 10**9), ("ms", 10**6), ("us", 10**3)):
        if nanoseconds >= size:
            return f"{nanoseconds / size:.3g} {unit}"
    return f"{nanoseconds} ns"


def listed(words: list) -> str:
    """Words with commas and a final "and"."""
    texts = [str(word) for word in words]
    return texts[0] if len(texts) == 1 else f"{', '.join(texts[:-1])} and {texts[-1]}"


def headline(finding: Finding) -> str:
    numbers = finding.numbers
    if len(numbers) == 1:
        return f"line {numbers[0]} is wrong"
    if len(numbers) > 6:
        return f"{len(numbers)} calls contradict each other, the first wrong answer is that of line " \
               f"{finding.found.call.number}"
    return f"lines {listed(numbers)} contradict each other"


@dataclass(frozen=True)
class Told:
    """A part of a call in the words of the whole call: what it asked, with `..` for what does not matter, and what
    it answered."""
    part: Call
    whole: Call

    def task(self) -> str:
        task, part = self.whole.task, self.part.task
        if part == task or task.name not in ("trip", "update"):
            return task.line()
        if task.name == "trip":
            kept = set(part.items())
            return f"trip {task.customer} " + _shortened([item_text(ask) for ask in task.asks],
                                                         [ask in kept for ask in task.asks], " ")
        changes = part.changes or (part,)
        return "update " + _shortened([change.line() for change in task.changes],
                                      [change in changes for change in task.changes], " ; ")

    def unended(self) -> str:
        """Why the part has no end, and what is known of its effect."""
        if self.whole.is_undetermined:
            return "has no end in the log: it took effect with this answer or not at all"
        return "was still running: it took effect or not"

    def answer(self, reply: str | None = None) -> str:
        """The reply, or another reply to the part."""
        reply = self.part.reply if reply is None else reply
        if reply is None:
            return "?"
        name, part = self.whole.task.name, self.part.task
        if part.name == name:
            return _trip_words(part, reply) if name == "trip" else reply
        if name == "trip" and part.name == "newcust":
            return "cust=" + ("true" if reply == "true" else reply.removeprefix("false "))
        if name in ("leave", "bill"):
            return self._bill(reply)
        if is_probe(part):
            words = read_update(part, reply) or [reply]
            return ", ".join(f"{item_text(change.item)} {'exists' if word == 'true' else 'does not exist'}"
                             for change, word in zip(part.changes or (part,), words))
        return reply

    def _bill(self, reply: str) -> str:
        if reply == self.part.reply and self.whole.reply is not None:
            return self.whole.reply
        return "-1" if reply in ("false no-customer", "true") and self.part.task.name != "dropcust" \
            or reply == "false no-customer" else "a bill"

    def differing(self, right: str) -> tuple[str, str]:
        """The words of the reply, and of the right one, that differ."""
        was, other = self.answer(), self.answer(right)
        if self.whole.task.name in ("trip", "update", "audit") and was.count(" ") == other.count(" "):
            pairs = [(one, two) for one, two in zip(was.split(" "), other.split(" ")) if one != two]
            if pairs:
                return " ".join(one for one, _ in pairs), " ".join(two for _, two in pairs)
        return was, other


def _shortened(texts: list[str], is_kept: list[bool], separator: str) -> str:
    words: list[str] = []
    for text, kept in zip(texts, is_kept):
        if kept:
            words.append(text)
        elif not words or words[-1] != "..":
            words.append("..")
    return separator.join(words)


def _trip_words(task: Task, reply: str) -> str:
    parts = read_trip(reply)
    if parts is None:
        return reply
    kinds = [kind for kind in KINDS if any(ask[0] == kind for ask in task.asks)]
    words = reply.split(" ")
    return " ".join([words[1]] + [words[2 + KINDS.index(kind)] for kind in kinds])


# ---- states

def state_rows(finding: Finding) -> list[Row]:
    """The customers and items that the few calls name or the states before them have."""
    rows: set[Row] = {row for opening in finding.few.openings for row in opening if row[0] != "booking"}
    for call in finding.few.calls:
        rows.update(call.task.items())
        if call.task.customer is not None:
            rows.add(("customer", call.task.customer))
    return sorted((row for row in rows if row[0] == "customer" or row[1] < LEAST_STAND_IN),
                  key=lambda row: (row[0] != "customer", row))


def row_in_words(state: State, row: Row) -> str:
    """A customer or an item of a state."""
    if row not in state:
        return f"{row_text(row)} does not exist"
    if is_item(row):
        used, free, price = state[row]
        return f"{row_text(row)}: {free} free{f', {used} booked' if used else ''}, price {price}"
    bookings = {booked_item(other): value for other, value in state.items()
                if other[0] == "booking" and other[1] == row[1]}
    if not bookings:
        return f"{row_text(row)} exists, without bookings"
    told = [f"{item_text(item)}{f' ({units} units)' if units > 1 else ''} for {cost}"
            for item, (units, cost) in sorted(bookings.items()) if item[1] < LEAST_STAND_IN]
    rest = sum(cost for item, (_, cost) in bookings.items() if item[1] >= LEAST_STAND_IN)
    told += [f"other items for {rest}"] if rest else []
    return f"{row_text(row)} exists, bill {sum(cost for _, cost in bookings.values())}: {', '.join(told)}"


def state_in_words(finding: Finding) -> list[str]:
    return [row_in_words(finding.few.openings[0], row) for row in state_rows(finding)]


def changes_in_words(finding: Finding, before: State, after: State) -> list[str]:
    """What a call changed."""
    return [row_in_words(after, row) for row in state_rows(finding)
            if row_in_words(before, row) != row_in_words(after, row)]


# ---- schedules

def _rows_in_words(rows: list[Row], most: int | None = None) -> str:
    texts = list(dict.fromkeys(map(row_text, rows)))
    if most is None or len(texts) <= most + 1:
        return ", ".join(texts)
    return f"{', '.join(texts[:most])}, {len(texts) - most} more"


def step_in_words(step: Step) -> str:
    """A step of a schedule, without rows that say nothing to a reader: some of what it reads, all that it writes."""
    reads = [row for row in sorted(step.reads, key=rank) if not is_stand_in(row)
             and not (row[0] == "booking" and ("bookings", row[1]) in step.reads)]
    booked: set[Item] = {booked_item(row) for row in step.written if row[0] == "booking"}
    verbs = [(row, verb) for row, verb in step.verbs if not is_stand_in(row) and row not in booked]
    parts = [f"reads {_rows_in_words(reads, MOST_ROWS)}"] if reads else []
    for verb in ("makes", "changes", "removes"):
        rows = [row for row, one in verbs if one == verb]
        parts += [f"{verb} {_rows_in_words(rows)}"] if rows else []
    return " and ".join(parts)


def merged(schedule: list[Step]) -> list[Step]:
    """The schedule with adjacent steps of a call as one, and without steps that tell nothing."""
    found: list[Step] = []
    for step in schedule:
        if found and found[-1].call is step.call:
            last = found.pop()
            step = Step(step.call, tuple(dict.fromkeys(last.reads + step.reads)),
                        tuple({**dict(step.verbs), **dict(last.verbs)}.items()), step.is_commit)
        found.append(step)
    return [step for step in found if step_in_words(step)]


# ---- what is claimed

def level_words(finding: Finding) -> list[tuple[str, str, bool]]:
    """Each level with its answer, and whether the program has confirmed it."""
    answers = {True: "yes", False: "no", None: "not known"}
    return [(level, answers[finding.levels.allowed[level]], level in finding.sure) for level in LEVELS]


def extremes(finding: Finding) -> str:
    """The weakest level that forbids the calls, and the strongest that allows them."""
    strongest = finding.levels.strongest_allowing()
    allowing = f"strongest that allows them: {strongest}" if strongest else "no level here is known to allow them"
    return f"weakest level that forbids them: {finding.levels.weakest_forbidding()}; {allowing}"


def allowed(finding: Finding) -> str:
    """The word for the levels that allow the calls. It says whether they are allowed at their times."""
    return "allowed" + ("" if finding.levels.keeps_times() else ", without their times")


def hint(finding: Finding) -> str:
    """Where the author of a transactional memory looks first; empty if the schedule does not keep the times."""
    kind = finding.kind
    if not kind.hint or finding.levels.orders.get(kind.level) != IN_TIME:
        return ""
    return f"In a transactional memory: {kind.hint}"


def orders_heading(finding: Finding) -> str:
    """Which orders of the calls are listed."""
    are_all = len(finding.few.calls) <= MOST_IN_ALL_ORDERS
    return "no order in time is right" + ("" if are_all else " (of several that leave the same state one is shown)")


def schedule_heading(finding: Finding) -> str:
    """The heading of a schedule."""
    kind = finding.kind
    is_in_time = finding.levels.orders.get(kind.level) == IN_TIME
    return (f"how it can happen {'with' if kind.level == STATEMENTS else 'under'} {kind.level}"
            f"{'' if is_in_time else ', without their times'}")


def proved(finding: Finding, history: History, verdict: str) -> str:
    """What the proved program has confirmed."""
    few = len(finding.few.calls)
    each = "" if len(finding.few_verdicts) == 1 else f", in each of {len(finding.few_verdicts)} cases"
    log = ""
    if is_decided(verdict):
        log = f"the log of {history.count:,} calls, and "
    elif finding.proved_calls is not None:
        log = f"a part of the log ({finding.proved_calls:,} calls), so the log is illegal; and "
    return f"{log}the {few} call{'s'[:few != 1]} above after the state before them{each}"


def proved_parts(finding: Finding, verdict: str) -> list[str]:
    """The parts of the log that the proved program calls illegal besides."""
    part = len(finding.found.part.calls)
    is_told = finding.proved_calls is None or not is_decided(verdict)
    own = [] if is_told else [f"the part of the log that 'judge part' writes ({finding.proved_calls:,} calls)"]
    return [*own, f"the part of the log that the script takes ({part:,} call{'s'[:part != 1]})"]


def is_decided(verdict: str) -> bool:
    """Returns whether the program has decided about the whole log."""
    return verdict.startswith("illegal")


def not_proved(finding: Finding, verdict: str) -> str:
    """What the proved program has not confirmed."""
    is_known = is_decided(verdict) or finding.proved_calls is not None
    log = "" if is_known else "that the log is illegal (argued and tested), "
    return f"{log}the state before them, the levels below serializable, the schedule, the name"


def verdict_in_words(verdict: list[str]) -> str:
    """The program's verdict on the whole log, with its meaning."""
    words = verdict[0].split(" ")
    told = " ".join(words[:3])
    states = next((line.split(" ")[1] for line in verdict[1:] if line.startswith("states ")), "1")
    if words[:2] == ["illegal", "part"]:
        before = "" if states == "1" else f"; just before, {states} states were possible"
        return (f"{told}: when line {words[2]} ended, no order was left of what the calls say of"
                f" {_scope_in_words(words[3:])}{before}")
    if words[:2] == ["illegal", "order"]:
        return (f"{told}: no order of all calls is right, and at most {words[2]} of those that ended come one after"
                " the other with right answers")
    return f"{told}: the program's search of the whole log came to no end"


def _scope_in_words(words: list[str]) -> str:
    """The customers and items of a scope."""
    names = [f"{one} {number}" for one, number in zip(words[::2], words[1::2])]
    if len(names) > ENTRIES_IN_WORDS:
        return f"{', '.join(names[:ENTRIES_IN_WORDS])} and {len(names) - ENTRIES_IN_WORDS} more"
    return listed(names) if names else "some customers and items"
