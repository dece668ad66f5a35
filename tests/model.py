"""A small model of the tasks that a load draws, written from docs/RULES.md and apart from the program; the
scripts of this folder hold the program against it. What a task does is told by the model of the manager that all
scripts share, tools/explaining/model.py."""

import sys
from pathlib import Path

sys.path.insert(0, str(Path(__file__).resolve().parent.parent / "tools"))
from explaining.model import run
from explaining.tasks import Task, read_task

CAR, FLIGHT, ROOM = 0, 1, 2
MASK = (1 << 64) - 1


class Pcg32:
    """The generator PCG XSH RR 64/32 (O'Neill 2014), as its C library sets it up."""

    def __init__(self, seed, stream):
        self.increment = (stream << 1 | 1) & MASK
        self.state = (seed + self.increment) & MASK
        self.step()

    def step(self):
        self.state = (self.state * 6364136223846793005 + self.increment) & MASK

    def below(self, n):
        state = self.state
        self.step()
        word = ((state >> 18 ^ state) >> 27) & 0xFFFFFFFF
        turn = state >> 59
        return ((word >> turn | word << (32 - turn)) & 0xFFFFFFFF) % n


KINDS = ("car", "flight", "room")
NAMES = ["cars", "flights", "rooms", "customers", "bookings", "used", "free", "total", "billed"]
DEFAULTS = {"clients": 4, "tasks": 100, "items": 16, "asks": 4, "user": 80, "seed": 1,
            "blocks": 1024, "tries": 64, "rounds": 1}


def price(draws):
    return draws.below(5) * 10 + 50


def opening(settings):
    """The commands of an opening: (words) -> an item's place, number and price, or a customer."""
    draws = Pcg32(settings["seed"], 0)
    for id in range(1, settings["items"] + 1):
        for kind in (CAR, FLIGHT, ROOM):
            num = (draws.below(5) + 1) * 100
            yield "add", (kind, id), num, price(draws)
    for id in range(1, settings["items"] + 1):
        yield "customer", id


def drawn_task(draws, items, asks, user):
    """A task of a client: a trip, a leave, or an update of changes (place, price or None)."""
    number = draws.below(100)
    if number < user:
        count, customer = draws.below(asks) + 1, draws.below(items) + 1
        return "trip", customer, [(draws.below(3), draws.below(items) + 1) for _ in range(count)]
    if number % 2 == 1:
        return "leave", draws.below(items) + 1
    changes = []
    for _ in range(draws.below(asks) + 1):
        place = (draws.below(3), draws.below(items) + 1)
        changes.append((place, price(draws) if draws.below(2) == 1 else None))
    return "update", changes


def tasks_of(settings, client):
    """The tasks of a client, counted from 1, in all rounds."""
    draws = Pcg32(settings["seed"], client)
    for _ in range(settings["rounds"] * settings["tasks"]):
        yield drawn_task(draws, settings["items"], settings["asks"], settings["user"])


def change_line(place, paid):
    kind, id = place
    if paid is not None:
        return f"add {KINDS[kind]} {id} 100 {paid}"
    return f"del flight {id}" if kind == FLIGHT else f"del {KINDS[kind]} {id} 100"


def line_of(task):
    """The line that makes a task."""
    if task[0] == "add":
        (kind, id), num, paid = task[1:]
        return f"add {KINDS[kind]} {id} {num} {paid}"
    if task[0] == "customer":
        return f"newcust {task[1]}"
    if task[0] == "trip":
        return f"trip {task[1]} " + " ".join(f"{KINDS[kind]} {id}" for kind, id in task[2])
    if task[0] == "leave":
        return f"leave {task[1]}"
    return "update " + " ; ".join(change_line(*change) for change in task[1])


def report_after(tasks, blocks):
    """The report of the state that tasks leave, one after the other."""
    state = {}
    for task in tasks:
        _, state = run(state, read_task(line_of(task)), blocks)
    return run(state, Task("audit"))[0]
