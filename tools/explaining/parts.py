"""Parts of histories: what the calls say about some customers and some items.

A *scope* is a set of customers and a set of items. The *part* of a history on a scope keeps of each call what
concerns the scope, as lines of the same language. If a history is legal, each of its parts is legal: take the
linearization of the history, and of each state the customers of the scope, their bookings of the items of the
scope, and these items with their totals and prices, where `used` counts the units booked by those customers. So an
illegal part shows that the history is illegal.

A part has at least as many free units as the history. A reply that depends on how few units are free is kept only
if the item is *closed*: all customers who may ever have booked it belong to the scope. A bill is kept only if the
scope has all items that the bill may hold. `full` depends on all entries and is never kept.

Not proved: that the part of a legal history is legal rests on this argument and on tests/explain.py. The program's
subcommand `part` writes parts with a proof. They say less: these here follow a pending call, and take a bill on the
items that its customer may have booked since it last had none."""

from __future__ import annotations

from bisect import bisect_left, bisect_right
from collections import defaultdict
from collections.abc import Iterable
from dataclasses import dataclass, field, replace
from itertools import accumulate

from .model import State, booked_item, booking_row, is_item
from .tasks import KINDS, NEVER, Call, Item, Task, TripReply, is_read_only, read_trip, read_update

UNIT_REFUSALS = ("not-free", "in-use", "sold-out")
MOST_ID = 4_294_967_295
MOST_PRICE = 1_000_000
# Clients of calls that are not bound to the order of their client any more.
FIRST_FREE_CLIENT = 4_000_000_000


def changed_bookings(call: Call) -> list[Item]:
    """The items whose bookings by its customer a call may have changed, the removal of all aside."""
    task = call.task
    if task.name in ("reserve", "cancel"):
        return [task.item] if call.reply in (None, "true") else []
    if task.name != "trip":
        return []
    if call.reply is None:
        return list(task.asks)
    parts = read_trip(call.reply)
    return parts.booked() if parts else []


def _clears(call: Call) -> bool:
    """Returns whether the customer has no bookings right after the call, except those that the call made."""
    match call.task.name:
        case "leave" | "dropcust":
            return call.is_complete
        case "bill":
            return call.reply == "-1"
        case "newcust":
            return call.reply == "true"
        case "trip":
            parts = read_trip(call.reply)
            return parts is not None and parts.customer == "true"
    return False


class Customer:
    """The calls of a customer that change its bookings, and those after which it surely has none."""

    def __init__(self, calls: list[Call]):
        self.changes = [(call.begin, call.end, items) for call in sorted(calls, key=lambda call: call.begin)
                        if (items := changed_bookings(call))]
        self.begins = [begin for begin, _, _ in self.changes]
        # The latest end of the changes so far, and the latest begin of the clearing calls so far.
        self.latest_ends = list(accumulate((end for _, end, _ in self.changes), max))
        clearing = sorted((call.end, call.begin) for call in calls if call.is_complete and _clears(call))
        self.cleared = [end for end, _ in clearing]
        self.latest_begins = list(accumulate((begin for _, begin in clearing), max))

    def billed(self, call: Call) -> set[Item]:
        """The items whose bookings a bill of the call may hold."""
        past = bisect_left(self.cleared, call.begin)
        since = self.latest_begins[past - 1] if past else -1
        found: set[Item] = set()
        place = bisect_right(self.begins, call.end) - 1
        while place >= 0 and self.latest_ends[place] >= since:
            if self.changes[place][1] >= since:
                found.update(self.changes[place][2])
            place -= 1
        return found


class Bookings:
    """Which customer may have booked which item, from the calls and from the states before them."""

    def __init__(self, calls: Iterable[Call], openings: Iterable[State] = ()):
        self.items: dict[int, set[Item]] = defaultdict(set)
        self.customers: dict[Item, set[int]] = defaultdict(set)
        self._calls: dict[int, list[Call]] = defaultdict(list)
        self._known: dict[int, Customer] = {}
        for opening in openings:
            for row in opening:
                if row[0] == "booking":
                    self.customers[booked_item(row)].add(row[1])
        for call in calls:
            if call.task.customer is None:
                continue
            self._calls[call.task.customer].append(call)
            for item in changed_bookings(call):
                self.items[call.task.customer].add(item)
                self.customers[item].add(call.task.customer)

    def billed(self, call: Call) -> set[Item]:
        """The items whose bookings the bill of a call may hold, beside those of the states before all calls: no
        booking is older than the last call that surely left the customer without bookings."""
        customer = call.task.customer
        if customer not in self._known:
            self._known[customer] = Customer(self._calls[customer])
        return self._known[customer].billed(call)


@dataclass
class Scope:
    """Some customers and items, with what is known of who booked what."""
    customers: frozenset[int]
    items: frozenset[Item]
    bookings: Bookings
    closed: frozenset[Item] = field(init=False)

    def __post_init__(self) -> None:
        self.closed = frozenset(item for item in self.items
                                if self.bookings.customers.get(item, set()) <= self.customers)

    def state(self, state: State) -> State:
        """The part of a state. The bookings of a customer outside the scope become one booking of a stand-in
        item, so that bills stay what they are."""
        part: State = {row: value for row, value in state.items()
                       if row[0] == "customer" and row[1] in self.customers}
        used: dict[Item, int] = defaultdict(int)
        rest: dict[int, int] = defaultdict(int)
        for row, value in state.items():
            if row[0] != "booking" or row[1] not in self.customers:
                continue
            if booked_item(row) in self.items:
                part[row] = value
                used[booked_item(row)] += value[0]
            else:
                rest[row[1]] += value[1]
        for row, value in state.items():
            if is_item(row) and row in self.items:
                part[row] = (used[row], value[0] + value[1] - used[row], value[2])
        self._add_stand_ins(part, rest)
        return part

    def _add_stand_ins(self, part: State, rest: dict[int, int]) -> None:
        free = (("room", MOST_ID - place) for place in range(MOST_ID) if ("room", MOST_ID - place) not in self.items)
        for customer, cost in sorted(rest.items()):
            if cost > 0:
                item, units = next(free), -(-cost // MOST_PRICE)
                part[item] = (units, 0, min(cost, MOST_PRICE))
                part[booking_row(customer, item)] = (units, cost)

    # ---- parts of calls

    def part(self, call: Call) -> list[Call]:
        """The part of a call: at most one call. A pending call gives several, each of which may have taken effect or
        not. An undetermined call stays one, with the part of its reply."""
        if call.reply is None:
            return [replace(call, task=task) for task in self._pending(call.task)]
        if call.task.name in ("bill", "leave"):
            found = self._bill(call)
        elif call.task.name == "trip":
            found = self._trip(call.task, call.reply)
        elif call.task.name == "update":
            found = self._update(call.task, call.reply)
        else:
            found = self._command(call.task, call.reply)
        return [] if found is None else [replace(call, task=found[0], reply=found[1])]

    def _command(self, task: Task, reply: str) -> Answer | None:
        reason = reply.removeprefix("false ")
        if reason == "full":
            return None
        if reason in UNIT_REFUSALS and task.item not in self.closed:
            return self._presence(task)
        match task.name:
            case "add" | "del" | "price":
                return (task, reply) if task.item in self.items else None
            case "free" if task.item in self.items:
                return (task, reply) if reply == "-1" or task.item in self.closed else probe([task.item], True)
            case "newcust" | "dropcust":
                return (task, reply) if task.customer in self.customers else None
            case "reserve" | "cancel":
                return self._booking(task, reply)
        return None

    def _presence(self, task: Task) -> Answer | None:
        """What a refusal says that depends on units: its customer and its item exist."""
        if task.customer in self.customers:
            return exists(task.customer)
        return probe([task.item], True) if task.item in self.items else None

    def _booking(self, task: Task, reply: str) -> Answer | None:
        has_customer, has_item = task.customer in self.customers, task.item in self.items
        if has_customer and has_item:
            return task, reply
        if reply == "false no-customer":
            return (Task("bill", task.customer), "-1") if has_customer else None
        if has_customer:
            return exists(task.customer)
        return probe([task.item], reply != "false no-item") if has_item else None

    def _bill(self, call: Call) -> Answer | None:
        customer = call.task.customer
        if customer not in self.customers:
            return None
        if call.reply in ("-1", "0") or self.bookings.billed(call) <= self.items:
            return call.task, call.reply
        return (Task("dropcust", customer), "true") if call.task.name == "leave" else exists(customer)

    def _trip(self, task: Task, reply: str) -> Answer | None:
        parts = read_trip(reply)
        if parts is None:
            return task, reply
        if parts.customer == "full":
            return None
        if parts.customer == "-" or task.customer not in self.customers:
            return self._seen_by_trip(task, parts)
        kept = [kind for kind in KINDS if kind not in parts.picks or self._keeps_pick(*parts.picks[kind])]
        if not any(kind in parts.picks for kind in kept):
            return Task("newcust", task.customer), "true" if parts.customer == "true" else "false exists"
        asks = tuple(ask for ask in task.asks if ask in self.items and ask[0] in kept)
        return replace(task, asks=asks), parts.only(kept).text()

    def _keeps_pick(self, item: Item, word: str) -> bool:
        return item in self.items and word != "full" and (word not in UNIT_REFUSALS or item in self.closed)

    def _seen_by_trip(self, task: Task, parts: TripReply) -> Answer | None:
        """What a trip says of items alone: its picks exist, and items of kinds without a pick do not."""
        changes, words = [], []
        for ask in dict.fromkeys(task.asks):
            if ask not in self.items or ask[0] in parts.picks and parts.picks[ask[0]][0] != ask:
                continue
            changes.append(Task("add", item=ask, number=0))
            words.append("true" if ask[0] in parts.picks else "needs-count-and-price")
        return updated(changes, words)

    def _update(self, task: Task, reply: str) -> Answer | None:
        words = read_update(task, reply)
        if words is None:
            return task, reply
        kept = [(change, word) for change, word in zip(task.changes, words) if self._keeps_pick(change.item, word)]
        return updated([change for change, _ in kept], [word for _, word in kept])

    def _pending(self, task: Task) -> list[Task]:
        """Tasks of which some, or none, may have done what a pending call did."""
        has_customer = task.customer in self.customers
        match task.name:
            case "add" | "del":
                return [task] if task.item in self.items else []
            case "newcust" | "dropcust":
                return [task] if has_customer else []
            case "leave":
                return [Task("dropcust", task.customer)] if has_customer else []
            case "reserve" | "cancel":
                return [task] if has_customer and task.item in self.items else []
            case "trip" if has_customer:
                return [Task("newcust", task.customer)] + [
                    Task("reserve", task.customer, ask, 1) for ask in dict.fromkeys(task.asks) if ask in self.items]
            case "update":
                return [change for change in task.changes if change.item in self.items]
        return []


Answer = tuple[Task, str]


def exists(customer: int) -> Answer:
    """A call that says that a customer exists."""
    return Task("newcust", customer), "false exists"


def updated(changes: list[Task], words: list[str]) -> Answer | None:
    """A change, or an update of several, with its reply."""
    if not changes:
        return None
    if len(changes) == 1:
        return changes[0], "true" if words[0] == "true" else f"false {words[0]}"
    return Task("update", changes=tuple(changes)), " ".join(["update", *words])


def probe(items: list[Item], is_there: bool) -> Answer:
    """A call that says that items exist, or do not, and changes nothing."""
    return updated([Task("add", item=item, number=0) for item in items],
                   ["true" if is_there else "needs-count-and-price"] * len(items))


def project(calls: Iterable[Call], scope: Scope) -> list[Call]:
    """The part of a history. What is left of pending calls belongs to clients of their own."""
    found, client = [], FIRST_FREE_CLIENT
    for call in calls:
        for part in scope.part(call):
            if part.reply is None:
                part, client = replace(part, client=client), client + 1
            found.append(part)
    return found


def cut(calls: Iterable[Call], time: int) -> list[Call]:
    """The history up to a moment: later calls are left out, and calls that run at the moment are undetermined. If
    the whole is legal, so is the cut with some of the undetermined calls: take the linearization up to the last
    call that has returned by then. None of its calls began later, and each gives its reply."""
    found = []
    for call in calls:
        if call.begin > time:
            continue
        if call.end <= time or call.reply is None:
            found.append(call)
        elif not is_read_only(call):
            found.append(replace(call, end=NEVER))
    return found
