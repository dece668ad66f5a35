"""The proved program as a judge, and the calls that lead to a state."""

from __future__ import annotations

import os
import shutil
import subprocess
from collections.abc import Iterable
from dataclasses import dataclass
from pathlib import Path

from .model import State, booked_item, is_item
from .tasks import Item, item_text

MOST_BLOCKS = 262_144
MOST_UNITS_AT_ONCE = 100
# Customers and items that the program takes for one part, each.
MOST_NAMES = 64
# Steps of the program's search: for a log, of which parts are looked at anyway, and for a part or a few calls.
LOG_STEPS, PART_STEPS = 1_000_000, 300_000


class NoProgram(Exception):
    """There is no program that judges."""


@dataclass(frozen=True)
class Program:
    """The program that judges histories."""
    path: Path

    @staticmethod
    def find(root: Path, named: str | None) -> Program:
        """The program of the command line, of the variable JUDGE, of the last build of a clone, beside the script,
        or on the PATH. In a clone `judge` beside the script is no program but builds one."""
        named = named or os.environ.get("JUDGE")
        if named:
            places = [Path(named)]
        elif (root / "crates").is_dir():
            places = [root / "crates/judge/out/judge"]
        else:
            places = [root / "judge", Path(shutil.which("judge") or root / "judge")]
        for place in places:
            if place.is_file() and os.access(place, os.X_OK):
                return Program(place.resolve())
        raise NoProgram(f"there is no program at {places[0]}: start ./judge once, or name one with --program")

    def judge_file(self, path: Path, blocks: int) -> tuple[int, list[str]]:
        """The status and the lines of the verdict on a log, in any order."""
        return self._judge_file(path, blocks, "--steps", str(LOG_STEPS))

    def judge_lines(self, path: Path, blocks: int) -> str:
        """The first line of the verdict on a log in the order of its lines."""
        return self._judge_file(path, blocks, "--given-order")[1][0]

    def _judge_file(self, path: Path, blocks: int, *options: str) -> tuple[int, list[str]]:
        with open(path, "rb") as log:
            done = subprocess.run([self.path, "history", "--blocks", str(blocks), *options], stdin=log,
                                  capture_output=True, text=True, check=False)
        if not done.stdout:
            raise NoProgram(f"{self.path} gave no verdict (status {done.returncode}): {done.stderr.strip()}")
        return done.returncode, done.stdout.splitlines()

    def part(self, path: Path, customers: Iterable[int], items: Iterable[Item]) -> list[str] | None:
        """The lines of the part of a log on a scope, or none if a call has no part or the scope is too large."""
        customers, items = sorted(customers), sorted(items)
        if not 1 <= max(len(customers), len(items)) <= MOST_NAMES:
            return None
        words = [self.path, "part"]
        for customer in customers:
            words += ["--customer", str(customer)]
        for kind, number in items:
            words += ["--item", kind, str(number)]
        with open(path, "rb") as log:
            done = subprocess.run(words, stdin=log, capture_output=True, text=True, check=False)
        return done.stdout.splitlines() if done.returncode == 0 else None

    def judge(self, lines: Iterable[str], blocks: int | None = None) -> str:
        """The first line of the verdict on a short history."""
        words = [self.path, "history", "--blocks", str(blocks or MOST_BLOCKS), "--steps", str(PART_STEPS)]
        done = subprocess.run(words, input="".join(f"{line}\n" for line in lines), capture_output=True, text=True,
                              check=False)
        return done.stdout.partition("\n")[0] or f"status {done.returncode}"


def is_illegal(verdict: str) -> bool:
    return verdict.startswith(("illegal order", "illegal part"))


def opening_tasks(state: State) -> list[str]:
    """Tasks that lead from the empty state to this one."""
    tasks = [f"newcust {row[1]}" for row in sorted(state, key=str) if row[0] == "customer"]
    prices: dict[Item, int] = {}

    def set_price(item: Item, price: int) -> None:
        if prices.get(item) == price:
            return
        used, free, _ = state[item]
        count = 0 if item in prices else used + free
        tasks.append(f"add {item_text(item)} {count} {price}")
        prices[item] = price

    for row, value in sorted(state.items(), key=str):
        if row[0] == "booking":
            item, (units, cost) = booked_item(row), value
            while units > 0:
                # As many units as there are of one price; one more has the rest of the sum.
                price = cost // units
                count = min(units if price * units == cost else units - 1, MOST_UNITS_AT_ONCE)
                set_price(item, price)
                tasks.append(f"reserve {row[1]} {item_text(item)}" + (f" {count}" if count > 1 else ""))
                units, cost = units - count, cost - count * price
    for row, value in sorted(state.items(), key=str):
        if is_item(row):
            set_price(row, value[2])
    return tasks
