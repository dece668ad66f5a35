"""The explanation as a text of at most thirty lines for a terminal. Long lines are wrapped. If there are too many
lines, those of the least weight give way."""

from __future__ import annotations

import re
import textwrap
from collections.abc import Callable
from dataclasses import dataclass

from .findings import Finding, kinds
from .history import History
from .levels import Step
from .tasks import Call
from .words import (Told, allowed, duration, headline, hint, is_decided, level_words, merged, not_proved,
                    orders_heading, proved, schedule_heading, state_in_words, step_in_words, verdict_in_words)

MOST_LINES, WIDTH, BAR = 30, 100, 46
MOST_CALLS, MOST_ORDERS, MOST_STATES = 6, 2, 4
# Stands for a space at which no line is broken.
GLUE = "\0"

# Weights of pieces, the first to give way first.
MORE_CALLS, MORE_STATES, OTHERS, MORE_ORDERS, HINT = 10, 20, 40, 50, 60
READS, STATES, ORDERS, WRITES, DECISIVE_WRITE, ALWAYS = 70, 75, 80, 85, 95, 100


@dataclass(frozen=True)
class Piece:
    """Lines that stay or go together."""
    lines: list[str]
    weight: int


@dataclass
class Section:
    """Pieces under a heading, which says how many of them are missing."""
    heading: Callable[[int], str] | None
    pieces: list[Piece]
    missing: int = 0

    def lines(self) -> list[str]:
        if not self.pieces:
            return []
        head = [] if self.heading is None else [self.heading(self.missing)]
        return head + [line for piece in self.pieces for line in piece.lines]


def _fitted(sections: list[Section]) -> list[str]:
    """The lines of the sections without those pieces for which there is no room: of the least weight the last."""
    lines = [line for section in sections for line in section.lines()]
    while len(lines) > MOST_LINES:
        least = min(piece.weight for section in sections for piece in section.pieces)
        if least == ALWAYS:
            return lines[:MOST_LINES]
        section = next(section for section in reversed(sections)
                       if any(piece.weight == least for piece in section.pieces))
        place = max(at for at, piece in enumerate(section.pieces) if piece.weight == least)
        del section.pieces[place]
        section.missing += 1
        lines = [line for section in sections for line in section.lines()]
    return lines


def _wrapped(text: str, indent: str = "", hanging: str = "  ") -> list[str]:
    """The text in lines that end between words. The name of a customer, an item or a line stays in one line."""
    glued = re.sub(r"\b(customer|line|car|flight|room) (?=\d)", rf"\1{GLUE}", text)
    lines = textwrap.wrap(glued, WIDTH, initial_indent=indent, subsequent_indent=indent + hanging,
                          break_on_hyphens=False)
    return [line.replace(GLUE, " ") for line in lines]


def _left_out(missing: int, name: str) -> str:
    return f" ({missing} more {name}{'s'[:missing != 1]})" if missing else ""


def _states(finding: Finding) -> Section:
    others = len(finding.few.openings) - 1
    more = f" (or one of {others} others)" if others else ""
    return Section(lambda missing: f"state before them{more}:{_left_out(missing, 'line')}",
                   [Piece(_wrapped(text, "  "), STATES if place < MOST_STATES else MORE_STATES)
                    for place, text in enumerate(state_in_words(finding))])


def _bars(calls: list[Call]) -> list[str]:
    """A bar for the time of each call."""
    begin = min(call.begin for call in calls)
    span = max([call.end for call in calls if call.is_complete] + [call.begin for call in calls]) - begin or 1
    found = []
    for call in calls:
        left = (call.begin - begin) * (BAR - 2) // span
        right = (call.end - begin) * (BAR - 2) // span + 1 if call.is_complete else BAR - 1
        bar = " " * left + "[" + "=" * (right - left - 1) + ("]" if call.is_complete else ">")
        found.append(bar[:BAR].ljust(BAR))
    return found


def _calls(finding: Finding, history: History) -> Section:
    calls, pieces = finding.calls, []
    within = duration(max(call.end for call in calls if call.is_complete) - calls[0].begin)
    for place, (call, bar) in enumerate(zip(calls, _bars(calls))):
        told = Told(call, history.by_number[call.number])
        is_wrong = call.number == finding.found.call.number
        mark = "*" if is_wrong and call.is_complete else " "
        weight = ALWAYS if is_wrong or len(calls) <= MOST_CALLS or place < MOST_CALLS - 1 else MORE_CALLS
        pieces.append(Piece([f" {mark}line {call.number}".ljust(14) + f" client {told.whole.client}".ljust(12) + bar,
                             *_wrapped(f"{told.task()} -> {told.answer()}"
                                       + ("" if call.is_complete else "   (took effect or not)"), "     ")], weight))
    return Section(lambda missing: f"calls, within {within} (* the first wrong answer):{_left_out(missing, 'call')}",
                   pieces)


def _orders(finding: Finding, history: History) -> Section:
    """Each order that fails, with the reply that does not fit beside the right one."""
    pieces = []
    for end in finding.ends:
        names = [str(call.number) for call in end.order]
        names = names if len(names) < 7 else [names[0], "..", *names[-2:]]
        for call, right in end.stuck:
            was, other = Told(call, history.by_number[call.number]).differing(right)
            start = f"{', then '.join(names)}, then {call.number}" if names else f"{call.number} first"
            pieces.append(Piece(_wrapped(f"{start}: it answered {was}, right is {other}", "  ", "    "),
                                ORDERS if len(pieces) < MOST_ORDERS else MORE_ORDERS))
    return Section(lambda missing: f"{orders_heading(finding)}:"
                   + (f" ({missing} more fail{'s'[:missing == 1]} as well)" if missing else ""), pieces)


def _schedule(finding: Finding) -> Section:
    steps = merged(finding.kind.schedule)
    last = max((place for place, step in enumerate(steps) if step.verbs), default=None)

    def weight(place: int, step: Step) -> int:
        return DECISIVE_WRITE if place == last else WRITES if step.verbs else READS

    return Section(lambda missing: f"{schedule_heading(finding)}:{_left_out(missing, 'step')}",
                   [Piece(_wrapped(f"{step.call.number} {step_in_words(step)}", "  ", "    "), weight(place, step))
                    for place, step in enumerate(steps)])


def _levels(finding: Finding) -> Section:
    """The levels by their answer, the strongest first."""
    heads = {"no": "forbidden", "yes": allowed(finding), "not known": "not known"}
    told = []
    for answer, head in heads.items():
        levels = [level for level, found, _ in level_words(finding) if found == answer]
        told += [f"{head}: {', '.join(levels)}"] if levels else []
    return Section(None, [Piece(_wrapped(f"levels (these calls alone): {'; '.join(told)}"), ALWAYS)])


def _claims(finding: Finding, history: History, verdict: str) -> Section:
    return Section(None, [Piece(_wrapped(f"proved illegal: {proved(finding, history, verdict)}"), ALWAYS),
                          Piece(_wrapped(f"not proved: {not_proved(finding, verdict)}"), ALWAYS)])


def _others(explained: list[Finding], others: int) -> Section:
    if not others:
        return Section(None, [])
    named = ", ".join(f"{count} {name}" for name, count in kinds(explained[1:]).items())
    text = f"others: {others} contradiction{'s'[:others != 1]}" + (f", of them {named}" if named else "")
    return Section(None, [Piece(_wrapped(text), OTHERS)])


def explanation(explained: list[Finding], history: History, verdict: list[str], others: int,
                written: list[str]) -> str:
    """The text about the first finding, and how many others there are."""
    finding = explained[0]
    kind = finding.kind
    head = [Piece(_wrapped(f"illegal: {headline(finding)}"), ALWAYS),
            Piece(_wrapped(f"{kind.title()}: {kind.why}", "  ", ""), ALWAYS)]
    if hint(finding):
        head.append(Piece(_wrapped(hint(finding), "  ", ""), HINT))
    apart = " (the program's own search, apart from the calls above)" if is_decided(verdict[0]) else ""
    sections = [Section(None, head), _states(finding), _calls(finding, history), _orders(finding, history),
                _schedule(finding), _levels(finding), _claims(finding, history, verdict[0]),
                _others(explained, others),
                Section(None, [Piece(_wrapped(line), ALWAYS) for line in written]),
                Section(None, [Piece(_wrapped(f"verdict: {verdict_in_words(verdict)}{apart}"), ALWAYS)])]
    return "\n".join(_fitted(sections))
