"""Parts of histories as the subcommand `part` must write them, by trying which items can be closed and which customers
whole, and parts of cuts (`part --until`). Written from crates/judge_reservations/specs, crates/judge_object/specs and
crates/judge_part_text/specs, apart from the parts of tools/explaining."""

from dataclasses import dataclass, replace

from explaining.tasks import NEVER, Task

KINDS = ("car", "flight", "room")
MOST_ID = 4_294_967_295


@dataclass(frozen=True)
class Names:
    """A scope, with the items that are closed and the customers that are whole."""
    customers: frozenset
    items: frozenset
    closed: frozenset = frozenset()
    whole: frozenset = frozenset()

    def allows(self, customer, item):
        return ((customer in self.customers or item not in self.closed)
                and (item in self.items or customer not in self.whole))


def picks(reply):
    """The words of the reply to a trip for the customer and for each kind, or none."""
    words = reply.split(" ")
    return None if len(words) != 5 else (words[1], dict(zip(KINDS, words[2:])))


def shown(kind, word):
    """The item that a word for a kind shows, with the result of its booking."""
    number, _, result = word.partition("=")[2].partition(":")
    if not number.isdecimal() or len(number) > 10 or not 1 <= int(number) <= MOST_ID:
        return None
    return (kind, int(number)), result


def trip_fits(names, customer, reply):
    found = picks(reply)
    picked = [] if found is None else [shown(kind, word) for kind, word in found[1].items()]
    return all(pick is None or pick[1] != "true" or names.allows(customer, pick[0]) for pick in picked)


def concerns(names, task):
    """Returns whether a command may change what belongs to the scope."""
    if task.name in ("add", "del"):
        return task.item in names.items
    if task.name in ("newcust", "dropcust"):
        return task.customer in names.customers
    return task.name in ("reserve", "cancel") and task.customer in names.customers and task.item in names.items


def fits(names, call):
    """Returns whether a call has a part."""
    task, reply = call.task, call.reply
    if reply is not None:
        if task.name == "trip":
            return trip_fits(names, task.customer, reply)
        return task.name != "reserve" or reply != "true" or names.allows(task.customer, task.item)
    if task.name == "reserve":
        return names.allows(task.customer, task.item)
    if task.name == "trip":
        return (all(names.allows(task.customer, ask) for ask in task.asks)
                and (task.customer not in names.customers or not names.items.intersection(task.asks)))
    return task.name != "update" or sum(concerns(names, change) for change in task.changes) <= 1


def pending_part(names, task):
    if task.name == "trip":
        return Task("newcust", task.customer) if task.customer in names.customers else None
    if task.name == "leave":
        return task if task.customer in names.customers else None
    if task.name == "update":
        return next((change for change in task.changes if concerns(names, change)), None)
    return task if concerns(names, task) else None


def there(item):
    """A task that shows whether an item exists."""
    return Task("add", item=item, number=0)


def exists(customer):
    return Task("newcust", customer), "false exists"


def keeps_bill(names, customer, reply):
    """Returns whether a bill is kept: it may only hold bookings of the scope, or shows that there is no customer."""
    return customer in names.whole or reply == "-1"


def booking_part(names, task, reply):
    customer, item = task.customer in names.customers, task.item in names.items
    if customer and item:
        if task.name == "reserve" and reply == "false sold-out" and task.item not in names.closed:
            return exists(task.customer)
        return None if task.name == "reserve" and reply == "false full" else (task, reply)
    if customer:
        return (Task("bill", task.customer), "-1") if reply == "false no-customer" else exists(task.customer)
    if not item or reply == "false no-customer":
        return None
    return there(task.item), "false needs-count-and-price" if reply == "false no-item" else "true"


def command_part(names, task, reply):
    match task.name:
        case "add":
            return (task, reply) if task.item in names.items and reply != "false full" else None
        case "del" if task.item in names.items:
            why = "false in-use" if task.item[0] == "flight" else "false not-free"
            return (there(task.item), "true") if reply == why and task.item not in names.closed else (task, reply)
        case "newcust":
            return (task, reply) if task.customer in names.customers and reply != "false full" else None
        case "dropcust":
            return (task, reply) if task.customer in names.customers else None
        case "free":
            return (task, reply) if task.item in names.closed else None
        case "price":
            return (task, reply) if task.item in names.items else None
        case "bill" if task.customer in names.customers:
            return (task, reply) if keeps_bill(names, task.customer, reply) else None
        case "reserve" | "cancel":
            return booking_part(names, task, reply)
    return None


def trip_part(names, task, reply):
    found = picks(reply)
    if found is None or task.customer not in names.customers or found[0] not in ("cust=true", "cust=exists"):
        return None
    kept = {}
    for kind, word in found[1].items():
        pick = shown(kind, word)
        kept[kind] = pick is None or (pick[0] in names.items and pick[1] != "full"
                                      and (pick[1] != "sold-out" or pick[0] in names.closed))
    asks = tuple(ask for ask in task.asks if ask in names.items and kept[ask[0]])
    if asks and any(kept[kind] and shown(kind, word) for kind, word in found[1].items()):
        words = [word if kept[kind] else f"{kind}=-" for kind, word in found[1].items()]
        return replace(task, asks=asks), " ".join(["trip", found[0], *words])
    return (Task("newcust", task.customer), "true") if found[0] == "cust=true" else exists(task.customer)


def update_part(names, task, reply):
    kept = []
    for change, word in zip(task.changes, reply.split(" ")[1:]):
        if change.item not in names.items or (change.name == "add" and word == "full"):
            continue
        why = None if change.name == "add" else "in-use" if change.item[0] == "flight" else "not-free"
        kept.append((there(change.item), "true") if word == why and change.item not in names.closed
                    else (change, word))
    if not kept:
        return None
    return replace(task, changes=tuple(change for change, _ in kept)), " ".join(["update", *(word for _, word in kept)])


def part_of_call(names, call):
    task, reply = call.task, call.reply
    if reply is None:
        task = pending_part(names, task)
        return None if task is None else replace(call, task=task)
    if task.name == "leave":
        found = None if task.customer not in names.customers else (
            (task, reply) if keeps_bill(names, task.customer, reply) else (Task("dropcust", task.customer), "true"))
    elif task.name in ("trip", "update"):
        found = (trip_part if task.name == "trip" else update_part)(names, task, reply)
    else:
        found = command_part(names, task, reply)
    return None if found is None else replace(call, task=found[0], reply=found[1])


def cut_of(calls, moment):
    """The calls as they stood at a moment, each with the number of its line: a call that was running is undetermined
    if its reply is known."""
    return [(number, call if call.end <= moment else replace(call, end=NEVER))
            for number, call in enumerate(calls, 1) if min(call.begin, call.end) <= moment]


def part_until(calls, line, customers, items, judged=None):
    """What `part --until` must write for these calls. With other calls, on the scope that has parts of those."""
    if not 1 <= line <= len(calls) or calls[line - 1].end == NEVER:
        return [f"fault no-end {line}"]
    return part_of_numbered(cut_of(calls, calls[line - 1].end), customers, items, judged)


def part_of(calls, customers, items):
    """What `part` must write for these calls."""
    return part_of_numbered(list(enumerate(calls, 1)), customers, items)


def part_of_numbered(numbered, customers, items, judged=None):
    """The part of calls, each with the number of its line; or the fault of the first call that has no part. The scope
    has parts of these calls, or of the judged ones."""
    names, calls = Names(frozenset(customers), frozenset(items)), [call for _, call in numbered]
    judged = calls if judged is None else judged
    for number, call in numbered:
        if not fits(names, call):
            return [f"fault no-part {number}"]
    names = replace(
        names,
        closed=frozenset(item for item in items
                         if all(fits(replace(names, closed=frozenset({item})), call) for call in judged)),
        whole=frozenset(customer for customer in customers
                        if all(fits(replace(names, whole=frozenset({customer})), call) for call in judged)))
    return [part.line() for call in calls if (part := part_of_call(names, call)) is not None]
