#!/usr/bin/env python3
"""Damages each word of a small dump in turn, to several values, and compares what `vacation check`
says of it with a naive checker that stands here, written from the table of words in docs/RULES.md and
apart from the program. It audits a table after each of many commands that let it grow and shrink.
Then it holds chains of as many blocks as a heap may have against the
program, which must answer their flaw in little time and without a stack that grows. Its argument is
the program; with none it is the one that the last build left."""

import os
import subprocess
import sys

HEADS, FIRST, BLOCK, MOST_BLOCKS = 8, 16, 8, 262_144
MOST_ID, MOST_PRICE, MOST_TOTAL, MOST_UNITS = (1 << 32) - 1, 1_000_000, 1_000_000_000, 10_000
NAMES = ["cars", "flights", "rooms", "customers", "bookings", "used", "free", "total", "billed"]


class Flaw(Exception):
    pass


class Checker:
    """The walk over the words, in the order of the table; the first flaw is raised."""

    def __init__(self, words):
        self.words, self.seen = words, set()
        self.items, self.customers, self.bookings = [{}, {}, {}], {}, []

    def follow(self, at):
        place = self.words[at]
        if place == 0:
            return 0
        if place < FIRST or place >= len(self.words) or (place - FIRST) % BLOCK != 0:
            raise Flaw("pointer", at)
        if place in self.seen:
            raise Flaw("shared", at)
        self.seen.add(place)
        return place

    def tree(self, at, table, look):
        """The colour and the black height below the word `at`."""
        node = self.follow(at)
        if node == 0:
            return 0, 0
        left = self.tree(node + 1, table, look)
        key = self.words[node]
        if not 1 <= key <= MOST_ID or any(other >= key for other in table):
            raise Flaw("order", node)
        table[key] = node
        look(node)
        right = self.tree(node + 2, table, look)
        colour = self.words[node + 3]
        if colour > 1 or colour == 1 and (at < FIRST or left[0] == 1 or right[0] == 1):
            raise Flaw("colour", node + 3)
        if left[1] != right[1]:
            raise Flaw("colour", node + 3)
        return colour, left[1] + (1 if colour == 0 else 0)

    def item(self, node):
        used, free, total, price = self.words[node + 4:node + 8]
        if not 1 <= total <= MOST_TOTAL or used + free != total or price > MOST_PRICE:
            raise Flaw("counts", node + 4)

    def customer(self, node):
        at, before = node + 4, None
        while booking := self.follow(at):
            kind, id, total, _, units = self.words[booking:booking + 5]
            if kind > 2 or not 1 <= id <= MOST_ID or before is not None and (kind, id) <= before:
                raise Flaw("order", booking)
            if not 1 <= units <= MOST_UNITS or total > units * MOST_PRICE or id not in self.items[kind]:
                raise Flaw("bookings", booking)
            self.bookings.append((kind, id, units, total))
            at, before = booking + 3, (kind, id)

    def report(self):
        for kind in range(3):
            self.tree(1 + kind, self.items[kind], self.item)
        self.tree(4, self.customers, self.customer)
        for kind in range(3):
            for id, node in sorted(self.items[kind].items()):
                if self.words[node + 4] != sum(b[2] for b in self.bookings if b[:2] == (kind, id)):
                    raise Flaw("bookings", node + 4)
        for head in range(HEADS, HEADS + 8):
            at = head
            while block := self.follow(at):
                at = block
        for block in range(FIRST, len(self.words), BLOCK):
            if block not in self.seen:
                raise Flaw("lost", block)
        nodes = [node for table in self.items for node in table.values()]
        numbers = [len(table) for table in self.items] + [len(self.customers)]
        numbers.append(sum(b[2] for b in self.bookings))
        numbers += [sum(self.words[node + place] for node in nodes) for place in (4, 5, 6)]
        numbers.append(sum(b[3] for b in self.bookings))
        return " ".join(f"{name}={number}" for name, number in zip(NAMES, numbers))


def wanted(words):
    """What `check` writes, and its status."""
    blocks = (len(words) - FIRST) // BLOCK
    if (len(words) - FIRST) % BLOCK != 0 or not 1 <= blocks <= MOST_BLOCKS:
        return "fault bad-words\n", 1
    try:
        return Checker(words).report() + "\n", 0
    except Flaw as flaw:
        return f"flaw {flaw.args[0]} {flaw.args[1]}\n", 1


def run(program, words, text, seconds=60):
    done = subprocess.run([program] + words, input=text, capture_output=True, text=True,
                          timeout=seconds)
    return done.stdout, done.returncode


FAILED = []


def want(found, right, what):
    if found != right:
        FAILED.append(what)
        print(f"check: {what}: {found!r}, not {right!r}", file=sys.stderr)


SCRIPT = """add car 7 100 50
add car 2 9 20
add car 9 5 30
add room 7 100 60
add flight 4 3 10
newcust 3
newcust 5
reserve 3 car 7 2
reserve 3 room 7
reserve 5 car 7 40
"""


def text_of(words):
    return "".join(f"{word}\n" for word in words)


def damages(program):
    """A dump, and that dump with one word changed; how many were tried."""
    text, status = run(program, ["dump", "--blocks", "13"], SCRIPT)
    want(status, 0, "dump")
    words = [int(line) for line in text.splitlines()]
    tried = 0
    for at in range(len(words)):
        values = {0, 1, 2, 7, 16, 17, 24, words[at] + 1, words[at] + 8, words[at],
                  len(words) - 8, len(words), 1 << 32, (1 << 64) - 1}
        for value in sorted(values):
            damaged = words[:at] + [value] + words[at + 1:]
            want(run(program, ["check"], text_of(damaged)), wanted(damaged), f"word {at} is {value}")
            tried += 1
    for count in (0, 15, 16, 23, len(words) - 8, len(words) - 1):
        want(run(program, ["check"], text_of(words[:count])), wanted(words[:count]), f"{count} words")
    return tried


def chain(link):
    """A heap in which the cars are one chain of nodes, all linked by this word of the block."""
    words = [0] * (FIRST + BLOCK * MOST_BLOCKS)
    words[1] = FIRST
    for block in range(MOST_BLOCKS):
        place = FIRST + BLOCK * block
        key = MOST_BLOCKS - block if link == 1 else block + 1
        words[place:place + BLOCK] = [key, 0, 0, 0, 0, 1, 1, 1]
        if block + 1 < MOST_BLOCKS:
            words[place + link] = place + BLOCK
    return words


def full_heap():
    """A balanced heap: 2^17 - 1 cars in a tree of black nodes, and a customer who has booked each."""
    words, cars = [0] * (FIRST + BLOCK * MOST_BLOCKS), (1 << 17) - 1
    place_of = lambda block: FIRST + BLOCK * block
    for id in range(1, cars + 1):
        step = (id & -id) // 2
        sides = [place_of(id - step - 1), place_of(id + step - 1)] if step else [0, 0]
        words[place_of(id - 1):place_of(id)] = [id, *sides, 0, 1, 0, 1, 2]
        after = place_of(cars + id) if id < cars else 0
        words[place_of(cars + id - 1):place_of(cars + id)] = [0, id, 2, after, 1, 0, 0, 0]
    owner = place_of(2 * cars)
    words[owner:owner + BLOCK] = [1, 0, 0, 0, place_of(cars), 0, 0, 0]
    words[1], words[4], words[HEADS] = place_of((cars - 1) // 2), owner, place_of(2 * cars + 1)
    return words


def free_blocks():
    """A heap whose blocks are all in one free list."""
    words = [0] * (FIRST + BLOCK * MOST_BLOCKS)
    words[HEADS] = FIRST
    for block in range(MOST_BLOCKS - 1):
        words[FIRST + BLOCK * block] = FIRST + BLOCK * (block + 1)
    return words


def long_chains(program):
    low = FIRST + BLOCK * (MOST_BLOCKS - 2) + 3
    report = "cars=0 flights=0 rooms=0 customers=0 bookings=0 used=0 free=0 total=0 billed=0\n"
    full = ("cars=131071 flights=0 rooms=0 customers=1 bookings=131071 used=131071 free=0 "
            "total=131071 billed=262142\n")
    for name, words, right in [
        ("by left", chain(1), (f"flaw colour {low}\n", 1)),
        ("by right", chain(2), (f"flaw colour {low}\n", 1)),
        ("of bookings", full_heap(), (full, 0)),
        ("of free blocks", free_blocks(), (report, 0)),
    ]:
        want(run(program, ["check"], text_of(words)), right, f"a chain {name}")


def growing(program):
    """A thousand cars are added in ascending order and then the odd ones deleted: an audit of the
    words after each command."""
    commands = [f"add car {id} 3 5\n" for id in range(1, 1001)]
    commands += [f"del car {id} 3\n" for id in range(1, 1001, 2)]
    for done in range(1, len(commands) + 1):
        script = "".join(commands[:done])
        words, status = run(program, ["dump", "--blocks", "1000"], script)
        want(status, 0, f"dump after {done} commands")
        cars = done if done <= 1000 else 2000 - done
        report = (f"cars={cars} flights=0 rooms=0 customers=0 bookings=0 used=0 free={3 * cars} "
                  f"total={3 * cars} billed=0\n")
        want(run(program, ["check"], words), (report, 0), f"the words after {done} commands")
    return len(commands)


def main():
    here = os.path.dirname(os.path.realpath(__file__))
    program = os.path.join(here, "../crates/vacation/out/vacation")
    if len(sys.argv) > 1:
        program = sys.argv[1]
    if not os.access(program, os.X_OK):
        sys.exit(f"check: there is no program at {program}: './vacation' builds it")
    tried = damages(program)
    audits = growing(program)
    long_chains(program)
    print(f"check: {tried} changes of a word, {audits} audits of a growing table and 4 long chains, "
          f"{len(FAILED)} failed")
    sys.exit(1 if FAILED else 0)


main()
