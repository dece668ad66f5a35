"""The explanation as one HTML page without network: all text is there without scripts, which only zoom and copy."""

from __future__ import annotations

import base64
import json
from html import escape
from pathlib import Path

from .findings import Finding
from .history import History
from .model import run
from .picture import picture, round_times
from .program import MOST_BLOCKS
from .tasks import Call
from .timeline import Timeline
from .words import (Told, changes_in_words, duration, extremes, headline, hint, is_decided, level_words, merged,
                    not_proved, orders_heading, proved, proved_parts, schedule_heading, state_in_words,
                    step_in_words, verdict_in_words)

TEMPLATE = Path(__file__).resolve().parent / "page.html"
MOST_ORDERS, MOST_TICKS = 6, 8

MEANINGS = {
    "linearizable": "one after the other, each call between its begin and its end",
    "sequentially consistent": "one after the other, each client's calls in their order",
    "serializable": "one after the other, in any order",
    "snapshot isolation": "each call reads one snapshot; of two that write the same word or row at a time one fails",
    "read committed": "each statement reads what is committed when it starts",
    "single statements": "each statement takes effect by itself, without transactions"}


def _items(lines: list[str], tag: str = "ul", kind: str = "") -> str:
    return f'<{tag} class="{kind}">' + "".join(lines) + f"</{tag}>"


class Article:
    """The part of the page about one finding."""

    def __init__(self, place: int, finding: Finding, history: History, verdict: str):
        self.place, self.finding, self.history, self.verdict = place, finding, history, verdict
        self.timeline = Timeline(finding, history)

    def html(self) -> str:
        kind = self.finding.kind
        text = f"{headline(self.finding)[:1].upper()}{headline(self.finding)[1:]}"
        return "\n".join([
            f'<article id="finding-{self.place}" aria-label="{escape(kind.title(), quote=True)}">',
            f"<h2>{escape(kind.title())}</h2><p>{escape(text)}. {escape(kind.why)}{self._hint()}</p>",
            self._lanes(), self._calls(), self._orders(), self._levels(), self._schedule(), self._smallest(),
            self._claims(), "</article>"])

    def _told(self, call: Call) -> Told:
        return Told(call, self.timeline.whole(call))

    def _hint(self) -> str:
        text = hint(self.finding)
        return f" {escape(text)}" if text else ""

    # ---- lanes

    def _lanes(self) -> str:
        axis = [[stretch.left, stretch.right, stretch.begin - self.timeline.zero, stretch.end - self.timeline.zero]
                for stretch in self.timeline.stretches]
        ticks = [(self.timeline.at(after + self.timeline.zero), duration(after)) for stretch in
                 self.timeline.stretches if not stretch.is_gap for after in round_times(
                     0 if stretch.begin < self.timeline.zero else stretch.begin - self.timeline.zero,
                     stretch.end - self.timeline.zero, max(1, int(MOST_TICKS * (stretch.right - stretch.left))))]
        head = "".join(f'<span class="tick" style="--b:{at:.4f}">{text}</span>' for at, text in ticks)
        lines = "".join(f'<span class="tick" style="--b:{at:.4f}"></span>' for at, _ in ticks)
        lanes = "".join(f'<div class="lane"><span>client {client}</span><div class="track">{lines}{self._gaps()}'
                        f"{self._bars(client)}</div></div>" for client in self.timeline.clients)
        acts = (("in", "Zoom in"), ("out", "Zoom out"), ("left", "Earlier"), ("right", "Later"), ("whole", "Whole"))
        buttons = "".join(f'<button data-act="{act}">{text}</button>' for act, text in acts)
        svg = base64.b64encode(picture(self.finding, self.history).encode()).decode()
        name = "-".join(map(str, self.finding.numbers[:4]))
        return (f'<h3>When the calls ran</h3><div><div class="row">{buttons}'
                f'<a class="button" download="contradiction-{name}.svg" href="data:image/svg+xml;base64,{svg}">'
                f'Save the picture (SVG)</a></div><output class="soft"></output>'
                f'<div class="lanes" tabindex="0" role="group" data-axis="{escape(json.dumps(axis), quote=True)}"'
                ' aria-label="Calls over time. Keys: plus and minus zoom, arrows move, zero shows all.">'
                f'<div class="lane" aria-hidden="true"><span></span><div class="track ticks">{head}</div></div>{lanes}'
                '</div><p class="soft">Tall bars are the calls of the contradiction; ✗ marks the first wrong answer.'
                " A dashed end: the call was still running, or the log has no end of it, so it took effect or not."
                " Thin bars are other calls that"
                " name the same customers or items.</p></div>")

    def _gaps(self) -> str:
        return "".join(f'<span class="gap" title="{duration(one.end - one.begin)} not drawn"'
                       f' style="--b:{one.left:.4f};--e:{one.right:.4f}"></span>' for one in self.timeline.stretches if one.is_gap)

    def _bars(self, client: int) -> str:
        found = []
        for call in self.timeline.beside:
            if call.client == client:
                found.append(f'<span class="beside" {self._place(call)}></span>')
        for call in self.timeline.calls:
            if self.timeline.whole(call).client == client:
                kinds = "bar" + (" wrong" if self._is_wrong(call) else "") + ("" if call.is_complete else " open")
                found.append(f'<span class="{kinds}" {self._place(call)}>{call.number}'
                             f'{" ✗" if self._is_wrong(call) else ""}</span>')
        return "".join(found)

    def _is_wrong(self, call: Call) -> bool:
        return call.number == self.finding.found.call.number and call.is_complete

    def _place(self, call: Call) -> str:
        begin, end = self.timeline.span(call)
        title = escape(f"line {call.number}: {self.timeline.whole(call).line()}", quote=True)
        return f'title="{title}" style="--b:{begin:.4f};--e:{end:.4f}"'

    # ---- texts

    def _calls(self) -> str:
        lines = []
        for call in self.timeline.calls:
            told = self._told(call)
            mark = ' <b class="bad">✗ the first wrong answer</b>' if self._is_wrong(call) else ""
            when = duration(call.begin - self.timeline.zero)
            ran = f"ran for {duration(call.end - call.begin)}" if call.is_complete else told.unended()
            lines.append(f'<li class="{"wrong" if self._is_wrong(call) else ""}"><b>{call.number}</b> (client'
                         f" {told.whole.client}, begins at {when}, {ran}){mark}<br><code>{escape(told.task())} → "
                         f"{escape(told.answer())}</code></li>")
        return ("<h3>The calls</h3>" + _items(lines, "ul", "calls")
                + '<p class="soft">Each call by the number of its line; <code>..</code> stands for what does not'
                  " matter here.</p>")

    def _orders(self) -> str:
        lines = []
        for end in self.finding.ends[:MOST_ORDERS]:
            state, steps = self.finding.few.openings[0], []
            for call in end.order:
                _, after = run(state, call.task, self.finding.few.blocks)
                changed = "; ".join(changes_in_words(self.finding, state, after))
                told, state = self._told(call), after
                steps.append(f"<li><b>{call.number}</b> <code>{escape(told.task())} → {escape(told.answer())}</code>"
                             + (f' <span class="soft">then {escape(changed)}</span>' if changed else "") + "</li>")
            for call, right in end.stuck:
                was, other = self._told(call).differing(right)
                steps.append(f'<li><b>{call.number}</b> <span class="bad">✗ does not fit</span>: it answered'
                             f' <code class="bad">{escape(was)}</code>, right is <code class="good">{escape(other)}'
                             "</code></li>")
            lines.append(f"<li>{_items(steps, 'ol')}</li>")
        before = "; ".join(state_in_words(self.finding))
        others = len(self.finding.few.openings) - 1
        more = len(self.finding.ends) - MOST_ORDERS
        heading = orders_heading(self.finding)
        return (f"<h3>{heading[:1].upper()}{heading[1:]}</h3><p>Before the calls: {escape(before)}."
                + (f" (Or one of {others} other states, which are as wrong.)" if others else "") + "</p>"
                + _items(lines, "ul", "orders")
                + (f'<p class="soft">{more} more orders fail as well.</p>' if more > 0 else ""))

    def _levels(self) -> str:
        marks = {"yes": '<span class="good">✓ allows them</span>', "no": '<span class="bad">✗ forbids them</span>'}
        rows = "".join(f"<tr><th>{level}</th><td class='answer'>{marks.get(answer, 'not known')}</td><td>"
                       f"{'confirmed by the program' if sure else 'search of this script' if answer in marks else ''}"
                       f"</td><td class='soft'>{MEANINGS[level]}</td></tr>" for level, answer, sure in
                       level_words(self.finding))
        text = extremes(self.finding)
        when = "" if self.finding.levels.keeps_times() else " They are allowed without their times."
        return (f"<h3>Which levels allow it</h3><p>{text[:1].upper()}{text[1:]}. This is about these calls alone."
                f"{when}</p><table>{rows}</table>")

    def _schedule(self) -> str:
        steps = merged(self.finding.kind.schedule)
        if not steps:
            return ""
        lines = [f"<li><b>{step.call.number}</b> {escape(step_in_words(step))}</li>" for step in steps]
        heading = schedule_heading(self.finding)
        return f"<h3>{heading[:1].upper()}{heading[1:]}</h3>" + _items(lines, "ol")

    def _smallest(self) -> str:
        name = f"small-{self.place}"
        return ("<h3>The smallest run that shows it</h3><p>Client 0 makes the state before; then come the calls, with"
                " what matters of them. Times count from the first call.</p>"
                f'<div class="row"><button data-copy="{name}">Copy</button></div><pre id="{name}" tabindex="0">'
                + escape("\n".join(self.finding.logs()[0])) + "</pre><p><code>judge history --blocks"
                f" {self.finding.few.blocks or MOST_BLOCKS} &lt; FILE</code> says: <code>"
                f"{escape(self.finding.few_verdicts[0])}</code></p>")

    def _claims(self) -> str:
        customers = [f"customer {one}" for one in sorted(self.finding.found.customers)]
        items = [f"{kind} {one}" for kind, one in sorted(self.finding.found.items)]
        scope = ", ".join([*customers, *items[:6]] + ([f"{len(items) - 6} more items"] if len(items) > 6 else []))
        parts = "; ".join(proved_parts(self.finding, self.verdict))
        return ("<h3>What is proved, and what is not</h3>" + _items([
            f"<li><b>Proved</b> to be illegal, by the program's verdict on each:"
            f" {escape(proved(self.finding, self.history, self.verdict))}.</li>",
            f"<li><b>Proved</b> to be illegal besides: {escape(parts)}.</li>",
            f"<li>The part is what the calls say about {escape(scope or 'everything')}.</li>",
            f"<li><b>Not proved</b>: {escape(not_proved(self.finding, self.verdict))}; and that a"
            " legal log has a legal part as the script takes it (argued and tested).</li>"]))


def _strip(explained: list[Finding], history: History) -> str:
    """The whole log as a line, with a mark for each contradiction."""
    first = min(call.begin for call in history.calls)
    last = max((call.end for call in history.calls if call.is_complete), default=first) or 1
    marks = []
    for place, finding in enumerate(explained, 1):
        at = (finding.found.call.end - first) / max(1, last - first) * 98 + 1
        title = f"{finding.kind.title()}: {headline(finding)}"
        label = escape(title, quote=True)
        marks.append(f'<a class="{"first" if place == 1 else ""}" href="#finding-{place}" style="left:{at:.2f}%"'
                     f' title="{label}" aria-label="{label}">✗</a>')
    return (f'<div class="strip">{"".join(marks)}</div><p class="soft">The log from its first call to its last'
            f" ({duration(last - first)}), with the contradictions that this page explains.</p>")


def page(explained: list[Finding], history: History, verdict: list[str], name: str) -> str:
    """The page about all findings."""
    clients = len({call.client for call in history.calls})
    first = explained[0]
    links = [f'<li><a href="#finding-{place}">{escape(one.kind.title())}: {escape(headline(one))}</a></li>'
             for place, one in enumerate(explained, 1)]
    about = f"{history.count:,} calls" + (f" of {clients} clients" if history.is_whole else "")
    title = f"{first.kind.title()}: {headline(first)}"
    body = (f"<h1>Why this history is illegal</h1><p><code>{escape(Path(name).name)}</code>: {about}. The program's"
            f" verdict on it: {escape(verdict_in_words(verdict))}."
            f"{'' if is_decided(verdict[0]) else ' A part of the history is illegal, so the history is.'}</p>")
    body += _strip(explained, history) + (f"<nav aria-label='Contradictions'>{_items(links, 'ol')}</nav>"
                                          if len(explained) > 1 else "")
    body += "\n".join(Article(place, one, history, verdict[0]).html() for place, one in enumerate(explained, 1))
    return TEMPLATE.read_text(encoding="utf-8").replace("{{TITLE}}", escape(title)).replace("{{BODY}}", body)
