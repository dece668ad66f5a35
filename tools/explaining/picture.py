"""The picture of a finding as SVG: a lane for each client, the calls that contradict each other, and the orders that
fail. It is readable without colour, and in light and dark."""

from __future__ import annotations

from html import escape

from .findings import Finding
from .history import History
from .tasks import Call
from .timeline import Timeline
from .words import Told, duration, headline, orders_heading, state_in_words

WIDTH, MARGIN, LABELS = 960, 20, 92
# Heights in a lane: of the bars, of the text of a call, and of the calls beside.
BAR, LABEL, BESIDE = 30, 18, 12
TOP, LINE = 104, 20
MOST_ORDERS = 4
# Widths of a character, to cut texts: of the plain font and of the one for code.
WIDE, NARROW = 7.6, 7.2

STYLE = """
svg{--ink:#1c2430;--soft:#586374;--line:#cdd5de;--lane:#f3f5f8;--paper:#fff;
--bar:#2f6db0;--other:#b9c4d1;--bad:#b3261e}
@media(prefers-color-scheme:dark){svg{--ink:#e8edf3;--soft:#a4b0bf;--line:#46505e;--lane:#1d242e;--paper:#12171e;
--bar:#3f7fc4;--other:#566275;--bad:#ff8a80}}
text{font:13px system-ui,-apple-system,"Segoe UI",Roboto,"DejaVu Sans",sans-serif;fill:var(--ink)}
.title{font-size:18px;font-weight:650}.soft{fill:var(--soft)}
.code{font:12px ui-monospace,Menlo,"DejaVu Sans Mono",monospace}
.paper{fill:var(--paper)}.lane{fill:var(--lane)}.tick{stroke:var(--line)}.bar{fill:var(--bar);stroke:var(--ink)}
.open{stroke-dasharray:5 3}.wrong{stroke:var(--bad);stroke-width:3.5}.beside{fill:var(--other)}
.number{fill:#fff;font-weight:650}
.bad{fill:var(--bad);font-weight:650}.gap{stroke:var(--soft);stroke-dasharray:2 4}
"""


def round_times(begin: int, end: int, most: int) -> list[int]:
    """Round times between two times, zero among them."""
    step = 1
    while most > 0 and (end - begin) / step > most:
        step = step * 5 // 2 if str(step).startswith("2") else step * 2
    return [time for time in range(-(-begin // step) * step, end + 1, step)] if most > 0 else []


class Picture:
    """An SVG that grows downwards."""

    def __init__(self, finding: Finding, history: History):
        self.finding, self.history = finding, history
        self.timeline = Timeline(finding, history)
        self.parts: list[str] = []

    def text(self, x: float, y: float, text: str, kind: str = "", anchor: str = "start") -> None:
        width = NARROW if "code" in kind else WIDE * (1.35 if "title" in kind else 1)
        room = int((WIDTH - MARGIN - x) / width) if anchor == "start" else len(text)
        shown = text if len(text) <= room else text[:max(1, room - 1)] + "…"
        self.parts.append(f'<text x="{x:.1f}" y="{y:.1f}" class="{kind}" text-anchor="{anchor}">'
                          f"{escape(shown)}</text>")

    def x(self, fraction: float) -> float:
        return LABELS + fraction * (WIDTH - MARGIN - LABELS)

    def head(self) -> None:
        kind = self.finding.kind
        self.text(MARGIN, 32, f"{kind.title()}: {headline(self.finding)}", "title")
        self.text(MARGIN, 56, "before: " + "; ".join(state_in_words(self.finding)), "soft")

    def axis(self, bottom: float) -> None:
        """Ticks at round times, and dotted lines for long gaps."""
        for stretch in self.timeline.stretches:
            left, right = self.x(stretch.left), self.x(stretch.right)
            if stretch.is_gap:
                self.parts.append(f'<line class="gap" x1="{left:.1f}" x2="{right:.1f}" y1="{TOP - 10}"'
                                  f' y2="{TOP - 10}"/>')
                continue
            for after in round_times(stretch.begin - self.timeline.zero, stretch.end - self.timeline.zero,
                                     int((right - left) / 110)):
                x = self.x(self.timeline.at(after + self.timeline.zero))
                self.parts.append(f'<line class="tick" x1="{x:.1f}" x2="{x:.1f}" y1="{TOP - 6}" y2="{bottom:.1f}"/>')
                self.text(x, TOP - 12, duration(after) if after >= 0 else f"-{duration(-after)}", "soft", "middle")

    def lanes(self) -> float:
        """Draws the lanes, and returns where they end."""
        marks, y = [], float(TOP)
        for client in self.timeline.clients:
            mine = [call for call in self.timeline.calls if self.timeline.whole(call).client == client]
            height = BAR + LABEL * max(1, len(mine)) + BESIDE
            self.parts.append(f'<rect class="lane" x="{LABELS}" y="{y}" width="{WIDTH - MARGIN - LABELS}"'
                              f' height="{height}"/>')
            marks.append((client, mine, y, height))
            y += height + 6
        self.axis(y)
        for client, mine, top, height in marks:
            self.text(MARGIN, top + height / 2 + 4, f"client {client}")
            for call in self.timeline.beside:
                if call.client == client:
                    self.beside(call, top + height - BESIDE + 1)
            for row, call in enumerate(mine):
                self.bar(call, top, top + BAR + LABEL * row + 8)
        return y

    def beside(self, call: Call, y: float) -> None:
        left, right = (self.x(fraction) for fraction in self.timeline.span(call))
        self.parts.append(f'<rect class="beside" x="{left:.1f}" y="{y}" height="8" rx="2"'
                          f' width="{max(1.5, right - left):.1f}"><title>{escape(call.line())}</title></rect>')

    def bar(self, call: Call, y: float, label_y: float) -> None:
        left, right = (self.x(fraction) for fraction in self.timeline.span(call))
        told = Told(call, self.timeline.whole(call))
        is_wrong = call.number == self.finding.found.call.number and call.is_complete
        kinds = "bar" + (" wrong" if is_wrong else "") + ("" if call.is_complete else " open")
        width = max(4.0, right - left)
        self.parts.append(f'<rect class="{kinds}" x="{left:.1f}" y="{y + 6}" width="{width:.1f}" height="16" rx="3">'
                          f'<title>{escape(call.line())}</title></rect>')
        number = f"{call.number}{' ✗' if is_wrong else ''}"
        if width > 10 * len(number):
            self.text(left + 5, y + 18.5, number, "number")
        label = f"{call.number}: {told.task()} → {told.answer()}"
        at = max(LABELS + 4.0, min(left, WIDTH - MARGIN - NARROW * len(label)))
        self.text(at, label_y, label, "code")

    def orders(self, y: float) -> float:
        heading = orders_heading(self.finding)
        self.text(MARGIN, y, f"{heading[:1].upper()}{heading[1:]}:")
        lines = [(end, call, right) for end in self.finding.ends for call, right in end.stuck]
        for end, call, right in lines[:MOST_ORDERS]:
            y += LINE
            was, other = Told(call, self.timeline.whole(call)).differing(right)
            names = ", then ".join(str(one.number) for one in (*end.order, call))
            self.text(MARGIN, y, f"✗ {names}: {call.number} answered {was}, right is {other}", "code")
        if len(lines) > MOST_ORDERS:
            y += LINE
            self.text(MARGIN, y, f"and {len(lines) - MOST_ORDERS} more", "soft")
        return y

    def foot(self, y: float) -> float:
        levels = self.finding.levels
        strongest = levels.strongest_allowing()
        text = f"{levels.weakest_forbidding()} forbids these calls"
        when = "" if levels.keeps_times() else ", without their times"
        self.text(MARGIN, y, f"{text}; {strongest} allows them{when}." if strongest else f"{text}.")
        return y + LINE


def picture(finding: Finding, history: History) -> str:
    """The picture of a finding."""
    drawn = Picture(finding, history)
    drawn.head()
    bottom = drawn.lanes()
    bottom = drawn.foot(drawn.orders(bottom + 26) + 26)
    label = escape(f"{finding.kind.title()}: {headline(finding)}", quote=True)
    return (f'<svg xmlns="http://www.w3.org/2000/svg" viewBox="0 0 {WIDTH} {bottom:.0f}" width="{WIDTH}"'
            f' height="{bottom:.0f}" role="img" aria-label="{label}">\n<style>{STYLE}</style>\n'
            f'<rect class="paper" width="100%" height="100%"/>\n' + "\n".join(drawn.parts) + "\n</svg>\n")
