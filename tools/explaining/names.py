"""The names that the literature has for what went wrong. All of it is the judgement of the script; where nothing
fits, the name is `of no known kind`."""

from __future__ import annotations

from dataclasses import dataclass, field, replace

from .causes import Cause, Fault, faults_of, rivals
from .levels import COMMITTED, FREE, SERIALIZABLE, SNAPSHOT, STATEMENTS, Levels, Step
from .model import Row, State, run
from .reduction import LEAST_STAND_IN, Part, rank
from .tasks import Call, is_read_only, item_text, read_trip

UNKNOWN = "of no known kind"
WRITE_SKEW, LOST_UPDATE, READ_SKEW = "write skew", "lost update", "read skew"
LONG_FORK, STALE_READ, LOST_WRITE = "long fork", "stale read", "lost write"
DUPLICATE, DOUBLE_BOOKING, TORN_READ = "duplicate execution", "double booking", "torn read"
# Adya's codes, and those of Berenson and others.
LOST_UPDATE_CODES, READ_SKEW_CODES = "P4", "G-single, A5A"
# The weakest level that forbids each anomaly.
FORBIDDEN_BY = {WRITE_SKEW: SERIALIZABLE, LOST_UPDATE: SNAPSHOT, READ_SKEW: SNAPSHOT, LONG_FORK: SNAPSHOT,
                TORN_READ: COMMITTED}
# Other causes that the text names, the likeliest first, and the largest number of them.
OTHER_FAULTS, MOST_OTHER_FAULTS = (Fault.LOST, Fault.EARLY, Fault.TWICE, Fault.TORN), 2


@dataclass(frozen=True)
class Kind:
    """The name of an anomaly with its codes, the reason, and the schedule that shows it. `hint` tells the author of a
    transactional memory where to look; `fault` is that of the single call that the name blames."""
    name: str
    codes: str
    why: str
    level: str | None = None
    schedule: list[Step] = field(default_factory=list)
    hint: str = ""
    fault: Fault | None = None

    def title(self) -> str:
        return f"{self.name} ({self.codes})" if self.codes else self.name


@dataclass(frozen=True)
class DeadEnd:
    """An order of calls that goes no further: each call that may come next would have to answer otherwise."""
    order: tuple[Call, ...]
    stuck: tuple[tuple[Call, str], ...]


MOST_ENDS, MOST_ORDERS = 24, 400
# Up to this number of calls all orders are shown. Of more calls, orders of the same calls that leave the same state
# are shown once.
MOST_IN_ALL_ORDERS = 4


def dead_ends(part: Part, opening: State) -> list[DeadEnd]:
    """The orders of the calls in time as far as they are right, those with the most calls first."""
    calls = sorted(part.calls, key=lambda call: (call.end, call.number))
    found: list[DeadEnd] = []
    todo: list[tuple[tuple[Call, ...], State]] = [((), opening)]
    seen, left = set(), MOST_ORDERS
    while todo and left:
        left -= 1
        order, state = todo.pop()
        nexts, stuck = _nexts(calls, order, state, part.blocks), []
        for call, reply, after in nexts:
            if call.reply is None and after != state or call.reply == reply:
                placed = map(id, (*order, call))
                key = (tuple(placed) if len(calls) <= MOST_IN_ALL_ORDERS else frozenset(placed),
                       frozenset(after.items()))
                if key not in seen:
                    seen.add(key)
                    todo.append(((*order, call), after))
            elif call.is_complete:
                stuck.append((call, reply))
        if stuck and (len(calls) <= 3 or len(stuck) == len(nexts)):
            found.append(DeadEnd(order, tuple(stuck)))
    return sorted(found, key=lambda end: -len(end.order))[:MOST_ENDS]


def _nexts(calls: list[Call], order: tuple, state: State, blocks: int | None) -> list[tuple[Call, str, State]]:
    """The calls that may come next in time, with the right reply and the state after it. A reader that is right
    comes at once and alone."""
    placed = set(map(id, order))
    rest = [call for call in calls if id(call) not in placed]
    found = []
    for call in rest:
        if any(other.precedes(call) or other.client == call.client and (other.begin, other.number)
               < (call.begin, call.number) for other in rest if other is not call and other.is_complete):
            continue
        found.append((call, *run(state, call.task, blocks)))
    readers = [one for one in found if is_read_only(one[0]) and one[0].reply == one[1]]
    return readers[:1] or found


def row_text(row: Row) -> str:
    match row:
        case ("customer", number):
            return f"customer {number}"
        case ("bookings", number):
            return f"the bookings of customer {number}"
        case ("booking", number, _, item) if item >= LEAST_STAND_IN:
            return f"customer {number}'s other bookings"
        case ("booking", number, kind, item):
            return f"customer {number}'s booking of {kind} {item}"
    return item_text(row)


def covers(read: Row, written: Row) -> bool:
    """Returns whether a read of a row, or of all bookings of a customer, reads what was written."""
    return read == written or read[0] == "bookings" and written[0] == "booking" and read[1] == written[1]


PAST = {"makes": "made", "changes": "changed", "removes": "removed"}


def _done_to(step: Step, row: Row) -> str:
    return f"{PAST[dict(step.verbs)[row]]} {row_text(row)}"


def _telling(rows: list[Row]) -> Row:
    return min(rows, key=rank)


# ---- by schedules

def _of_snapshots(schedule: list[Step]) -> Kind:
    """Calls that did not see each other's writes: each reads its snapshot before the other commits."""
    edges = []
    for place, step in enumerate(schedule):
        for later in schedule[place + 1:]:
            rows = [row for row in later.written for read in step.reads if covers(read, row)]
            if later.call is not step.call and rows:
                edges.append((step, later, _telling(rows)))
    writers = {id(step.call) for step in schedule if step.verbs}
    edges = [edge for edge in edges if id(edge[0].call) in writers] or edges
    if not edges:
        return Kind(UNKNOWN, "", "The calls fit no order, and a schedule of snapshots explains them.", SNAPSHOT,
                    schedule)
    is_phantom = any(row not in reader.reads for reader, _, row in edges)
    told = "; ".join(f"{reader.call.number} did not see that {writer.call.number} {_done_to(writer, row)}"
                     for reader, writer, row in edges[:3])
    codes = "G2, by a phantom" if is_phantom else "G2-item, A5B"
    return Kind(WRITE_SKEW, codes, f"{told[:1].upper()}{told[1:]}. Each call read one snapshot, and they wrote no"
                " word or row in common.", SNAPSHOT, schedule,
                f"{_readers(edges)} did not validate its reads.")


def _readers(edges: list[tuple[Step, Step, Row]]) -> str:
    """The reader that had to validate its reads: of several, the last one that committed."""
    names = list(dict.fromkeys(str(reader.call.number) for reader, _, _ in edges))
    return names[0] if len(names) == 1 else f"whichever of {' and '.join(names)} committed last"


def _of_statements(schedule: list[Step], level: str) -> Kind:
    """What other calls wrote between the statements of a call."""
    found = {LOST_UPDATE: [], READ_SKEW: [], TORN_READ: []}
    for place, step in enumerate(schedule):
        for later_place in range(place + 1, len(schedule)):
            writer = schedule[later_place]
            if writer.call is step.call or not writer.verbs:
                continue
            rows = [row for row in writer.written if any(covers(read, row) for read in step.reads)]
            after = [one for one in schedule[later_place + 1:] if one.call is step.call]
            for row in rows:
                if any(row in one.written for one in after):
                    found[LOST_UPDATE].append((step, writer, row))
                elif any(covers(read, other) for one in after for read in one.reads for other in writer.written):
                    found[READ_SKEW].append((step, writer, row))
    if level == STATEMENTS:
        found[TORN_READ] = _torn(schedule)
    for name in (TORN_READ, LOST_UPDATE, READ_SKEW):
        if found[name]:
            return _named(name, *min(found[name], key=lambda one: rank(one[2])), schedule, level)
    return Kind(UNKNOWN, "", "The statements of a call saw different states.", level, schedule)


def _named(name: str, step: Step, writer: Step, row: Row, schedule: list[Step], level: str) -> Kind:
    reader, other = step.call.number, writer.call.number
    if name == TORN_READ:
        return Kind(name, "", f"{reader} read between two writes of {other}: {other} had {_done_to(writer, row)}, and"
                    " had not written the rest.", level, schedule,
                    f"{reader} read what {other} had written before its commit, or in the middle of its write-back.")
    if name == LOST_UPDATE:
        return Kind(name, LOST_UPDATE_CODES, f"{reader} read, then {other} {_done_to(writer, row)}, and then {reader}"
                    " wrote the same word or row by what it had read before.", level, schedule,
                    f"{reader} committed, although a word that it had read had changed since.")
    return Kind(name, READ_SKEW_CODES, f"{reader} read both before and after {other} {_done_to(writer, row)}: what"
                " it saw belongs to two states.", level, schedule,
                f"{reader} read on after {other}'s commit, and did not validate its earlier reads.")


def _torn(schedule: list[Step]) -> list[tuple[Step, Step, Row]]:
    """Reads of one call between two writes of another."""
    found = []
    for place, writer in enumerate(schedule):
        for at in range(place + 1, len(schedule)):
            step = schedule[at]
            goes_on = any(one.call is writer.call and one.verbs for one in schedule[at + 1:])
            rows = [row for row in writer.written if any(covers(read, row) for read in step.reads)]
            if step.call is not writer.call and goes_on and rows:
                found.append((step, writer, _telling(rows)))
    return found


# ---- by orders and causes

def _out_of_time(part: Part, wrong: Call, levels: Levels, causes: list[Cause]) -> Kind:
    """Calls that are right without their times: an old state was read, or a write was lost."""
    lost = next((cause for cause in causes if cause.fault is Fault.LOST and cause.call.precedes(wrong)), None)
    early = next((cause for cause in causes if cause.fault is Fault.EARLY and cause.call.number == wrong.number), None)
    if lost and (early is None or lost.reach > early.reach or lost.reach == early.reach and lost.raced):
        return _of_cause(part, wrong, levels, lost)
    past = sorted((call for call in part.calls if call.precedes(wrong) and not is_read_only(call)),
                  key=lambda call: call.end)
    seen = f", although {past[-1].number} had returned before {wrong.number} began" if past else ""
    own = ", and the client is the same" if past and past[-1].client == wrong.client else ""
    if not is_read_only(wrong):
        return Kind(UNKNOWN, "", f"{wrong.number} took effect in a state that was not there while it ran{seen}{own}."
                    " Without their times these calls are right.", fault=Fault.EARLY)
    return Kind(STALE_READ, "", f"{wrong.number} was answered from an older state{seen}{own}.", fault=Fault.EARLY)


def _of_cause(part: Part, wrong: Call, levels: Levels, cause: Cause) -> Kind:
    """The name of the fault of a single call. It has the codes of an anomaly unless a level that allows the anomaly
    forbids the calls."""
    number, at = cause.call.number, wrong.number
    may_show = levels.allowed[COMMITTED] is not False
    when = f"{number} had returned before {at} began" if cause.call.precedes(wrong) else "they ran at the same time"
    if cause.fault is Fault.LOST:
        raced = rivals(cause.call, part.calls)
        text = f"The answer of {at} is right if {cause.what} is lost; {when}."
        if not raced:
            return Kind(LOST_WRITE, "", text, fault=cause.fault)
        text += f" {raced[0].number} wrote the same word or row while {number} ran."
        if levels.allowed[SNAPSHOT]:
            return Kind(LOST_WRITE, "", text, fault=cause.fault)
        return Kind(LOST_UPDATE, LOST_UPDATE_CODES if may_show else "", text, fault=cause.fault)
    if cause.fault is Fault.TORN:
        text = f"The answer of {at} is right if {number} chose in one state and booked in another."
        return Kind(READ_SKEW, READ_SKEW_CODES if may_show else "", text, fault=cause.fault)
    if cause.fault is Fault.TWICE:
        return Kind(DUPLICATE, "", f"The answer of {at} is right if {number} took effect twice; {when}.",
                    fault=cause.fault)
    return Kind(STALE_READ, "", f"The answer of {at} is right if {number} saw an older state than any since {number}"
                " began.", fault=cause.fault)


def _others(part: Part, wrong: Call, kind: Kind, causes: list[Cause]) -> str:
    """A sentence on the other faults of single calls that give the same few replies."""
    if kind.name == UNKNOWN and kind.fault is None:
        return ""
    numbers = {call.number for call in part.calls}
    known = {kind.fault} | ({Fault.LOST} if LOST_UPDATE in kind.title() else set())
    # A schedule of statements shows how a call chooses in one state and books in another.
    known |= {Fault.TORN} if kind.schedule and kind.level != SNAPSHOT else set()
    found: dict[Fault, dict[int, None]] = {}
    for cause in [*faults_of(part, wrong), *causes]:
        is_stale = cause.fault is not Fault.EARLY or cause.call.number == wrong.number
        if cause.fault not in known and cause.call.number in numbers and is_stale:
            found.setdefault(cause.fault, {})[cause.call.number] = None
    told = [_fault_in_words(fault, sorted(found[fault])) for fault in OTHER_FAULTS if fault in found]
    return f" Or {', or '.join(told[:MOST_OTHER_FAULTS])}: these calls alone do not tell." if told else ""


def _fault_in_words(fault: Fault, numbers: list[int]) -> str:
    calls = " or ".join(map(str, numbers))
    match fault:
        case Fault.LOST:
            return f"what {calls} wrote was lost"
        case Fault.TWICE:
            return f"{calls} took effect twice"
        case Fault.TORN:
            return f"{calls} chose in one state and booked in another"
    return f"{calls} was answered from an older state"


def _oversold(ends: list[DeadEnd]) -> list[str]:
    """The items of which more units were booked than there were, by the calls that are stuck."""
    found = []
    for call, right in (stuck for end in ends for stuck in end.stuck):
        if call.task.name == "reserve" and (call.reply, right) == ("true", "false sold-out"):
            found.append(item_text(call.task.item))
        was, other = read_trip(call.reply), read_trip(right)
        if call.task.name == "trip" and was and other:
            found += [item_text(item) for kind, (item, word) in other.picks.items()
                      if word == "sold-out" and was.picks.get(kind) == (item, "true")]
    return found


def name(part: Part, wrong: Call, levels: Levels, causes: list[Cause], ends: list[DeadEnd]) -> Kind:
    """The kind of a contradiction, from the levels that allow it, or else from its cause, with the other causes that
    give the same log."""
    kind = _named_alone(part, wrong, levels, causes, ends)
    return replace(kind, why=kind.why + _others(part, wrong, kind, causes))


def _agreed(kind: Kind, levels: Levels) -> Kind:
    """Returns the kind unless a level that forbids its anomaly allows the calls. Otherwise the kind is that of a
    schedule of the strongest level that allows them. This schedule does not keep their times."""
    strongest, forbids = levels.strongest_allowing(), FORBIDDEN_BY.get(kind.name)
    if forbids is None or not levels.allowed[forbids] or strongest not in levels.schedules:
        return kind
    if strongest == SNAPSHOT:
        return _of_snapshots(levels.schedules[SNAPSHOT])
    return _of_statements(levels.schedules[strongest], strongest)


def _named_alone(part: Part, wrong: Call, levels: Levels, causes: list[Cause], ends: list[DeadEnd]) -> Kind:
    """The kind without its alternatives. No level that allows the calls forbids the anomaly of its name."""
    kind = _agreed(_kind(part, wrong, levels, causes), levels)
    stuck = {call.number for end in ends for call, _ in end.stuck}
    readers = {call.number for call in part.calls if is_read_only(call)}
    if not levels.allowed[SNAPSHOT] and len(stuck) > 1 and stuck <= readers:
        return Kind(LONG_FORK, "", f"{' and '.join(map(str, sorted(stuck)))} saw the writes of others in different"
                    " orders.")
    oversold = _oversold(ends)
    if oversold and len(oversold) == sum(len(end.stuck) for end in ends):
        codes = f"by {kind.title()}" if kind.name != UNKNOWN else ""
        return replace(kind, name=DOUBLE_BOOKING, codes=codes,
                       why=f"More units of {oversold[0]} were booked than there were. {kind.why}")
    return kind


def _kind(part: Part, wrong: Call, levels: Levels, causes: list[Cause]) -> Kind:
    schedules = {level: steps for level, steps in levels.schedules.items() if levels.orders[level] != FREE}
    impossible = next(filter(None, map(_impossible, part.calls)), None)
    if levels.allowed[SERIALIZABLE]:
        return _out_of_time(part, wrong, levels, causes)
    if SNAPSHOT in schedules:
        return _of_snapshots(schedules[SNAPSHOT])
    for level in (COMMITTED, STATEMENTS):
        if level in schedules:
            return _of_statements(schedules[level], level)
    if impossible:
        return Kind(UNKNOWN, "", f"No state gives such a reply: {impossible}.")
    # Causes are not looked for before a contradiction that only the whole history shows.
    causes = causes or (faults_of(part, wrong) if part.blocks is not None else [])
    if causes:
        return _of_cause(part, wrong, levels, causes[0])
    return Kind(UNKNOWN, "", "No single call that was lost, ran twice or saw an older state makes the answer right.")


def _impossible(call: Call) -> str | None:
    """Why no state gives the reply of a trip, or none if there is no such reason."""
    parts = read_trip(call.reply)
    if call.task.name != "trip" or parts is None:
        return None
    for item, word in parts.picks.values():
        if item not in call.task.asks:
            return f"{call.number} did not ask for {item_text(item)}"
        if word == "no-item":
            return f"{call.number} picked {item_text(item)} because it exists, and then found no such item"
        if word == "no-customer" and parts.customer in ("true", "exists"):
            return f"{call.number} has its customer, and then found no such customer"
    return None
