"""Where the calls of a finding stand on a time line: long gaps are drawn short."""

from __future__ import annotations

from dataclasses import dataclass

from .findings import Finding
from .history import History
from .tasks import Call, is_read_only

# A gap is drawn short if it is so many times longer than what was drawn before it.
LONG_GAP, SHORT_GAP = 6, 0.08
# The most calls that are drawn beside those of the finding, and the most clients.
MOST_BESIDE, MOST_CLIENTS = 120, 10


@dataclass(frozen=True)
class Stretch:
    """A stretch of time, and the fractions of the line between which it is drawn."""
    begin: int
    end: int
    left: float
    right: float
    is_gap: bool = False


class Timeline:
    """The time line of a finding. Fractions of its length are from 0 to 1."""

    def __init__(self, finding: Finding, history: History):
        self.finding, self.history = finding, history
        self.calls = finding.calls
        self.zero = min(call.begin for call in self.calls)
        self.last = max([call.end for call in self.calls if call.is_complete] + [call.begin for call in self.calls])
        self.stretches = _stretches(_clusters([(call.begin, min(call.end, self.last)) for call in self.calls]))
        self.beside = self._beside()
        named = [history.by_number[call.number].client for call in self.calls]
        rest = [call.client for call in self.beside]
        self.clients = sorted(list(dict.fromkeys([*named, *rest]))[:MOST_CLIENTS])

    def at(self, time: int) -> float:
        """The fraction at which a time stands."""
        for stretch in self.stretches:
            if time <= stretch.end:
                part = (time - stretch.begin) / max(1, stretch.end - stretch.begin)
                return stretch.left + max(0.0, part) * (stretch.right - stretch.left)
        return 1.0

    def span(self, call: Call) -> tuple[float, float]:
        """The fractions between which a call runs; one that never returned runs to the end."""
        return self.at(call.begin), self.at(call.end) if call.is_complete else 1.0

    def whole(self, call: Call) -> Call:
        """The call as the log has it."""
        return self.history.by_number[call.number]

    def _beside(self) -> list[Call]:
        """Other calls that ran at these times and name one of the rows."""
        customers = {call.task.customer for call in self.calls} - {None}
        items = {item for call in self.calls for item in call.task.items()}
        numbers = set(self.finding.numbers)
        drawn = [stretch for stretch in self.stretches if not stretch.is_gap]
        near = [call for call in self.history.naming(customers, items) if call.number not in numbers
                and any(call.begin <= stretch.end and call.end >= stretch.begin for stretch in drawn)]
        return sorted(near, key=lambda call: (is_read_only(call), call.begin))[:MOST_BESIDE]


def _clusters(spans: list[tuple[int, int]]) -> list[list[int]]:
    """The spans as a few stretches of time, with long gaps between them."""
    spans = sorted(spans)
    clusters = [list(spans[0])]
    for begin, end in spans[1:]:
        drawn = max(1, sum(last - first for first, last in clusters))
        if begin - clusters[-1][1] > LONG_GAP * drawn:
            clusters.append([begin, end])
        else:
            clusters[-1][1] = max(clusters[-1][1], end)
    return clusters


def _stretches(clusters: list[list[int]]) -> list[Stretch]:
    gaps = SHORT_GAP * (len(clusters) - 1)
    drawn = sum(max(1, end - begin) for begin, end in clusters)
    least = 0.15 / len(clusters)
    widths = [max(least, max(1, end - begin) / drawn) for begin, end in clusters]
    scale = (1 - gaps) / sum(widths)
    found: list[Stretch] = []
    left = 0.0
    for (begin, end), width in zip(clusters, widths):
        pad = max(1, (end - begin) // 12)
        if found:
            found.append(Stretch(found[-1].end, begin - pad, left, left + SHORT_GAP, True))
            left += SHORT_GAP
        found.append(Stretch(begin - pad, end + pad, left, left + width * scale))
        left += width * scale
    return found
