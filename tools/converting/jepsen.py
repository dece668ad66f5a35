"""Jepsen's histories: registers, sets, and lists that transactions append to."""

from __future__ import annotations

import re
from collections.abc import Iterator
from dataclasses import dataclass

from .calls import Call, Change, Fault, Operation, Options, Report, truth, value_word
from .edn import Form, Keyword, Reader, map_of
from .events import Begun, Events
from .values import edn_bytes, edn_text, items, pair, some_bytes

NO_FORM = Form(None, 0)
READS, WRITES = {"read", "get", "r"}, {"write", "put", "w", "set"}
ONE_KEY = READS | WRITES | {"cas", "append", "delete", "del", "add"}
LOG_LINE = re.compile(r"(?:\S.* jepsen\.\S+ - )?(:?\w+)\s+:(invoke|ok|fail|info)\s+:(\S+)(?:\s+(.*))?")
OTHER_LINE = re.compile(r"\S.* jepsen\.\S+ - .*")
REGISTER = b"register"


@dataclass(frozen=True, slots=True)
class Event:
    """An event of a process: `process` is None for the nemesis and the like."""
    process: int | None
    type: str
    f: str
    key: Form | None
    value: Form
    line: int


@dataclass(frozen=True, slots=True)
class Step:
    """A step of a call on one key: its function, its key, and its value when the call began."""
    f: str
    key: bytes
    value: Form
    line: int


def _word(form: Form | None, line: int, what: str) -> str:
    if form is None or not isinstance(form.value, Keyword):
        raise Fault("bad-event", line, f"the event has no {what}")
    return form.value.name.removeprefix(":")


def _event(form: Form) -> Event:
    """The event of a map."""
    if form.kind != "map":
        raise Fault("bad-event", form.line, "an event is a map")
    fields = map_of(form)
    process = fields.get("process", NO_FORM).value
    type_ = _word(fields.get("type"), form.line, ":type")
    if type_ not in ("invoke", "ok", "fail", "info"):
        raise Fault("bad-event", form.line, f":{type_} is no type of an event")
    if isinstance(process, Keyword):
        return Event(None, type_, "", None, NO_FORM, form.line)
    if isinstance(process, bool) or not isinstance(process, int):
        raise Fault("bad-number", form.line, "the process is neither a number nor a keyword")
    f = _word(fields.get("f"), form.line, ":f")
    return Event(process, type_, f, fields.get("key"), fields.get("value", Form(None, form.line)), form.line)


def _log_events(text: str, report: Report) -> Iterator[Event]:
    """The events of a log, a line for each."""
    for number, line in enumerate(text.split("\n"), 1):
        found = LOG_LINE.fullmatch(line.strip())
        if not line.strip():
            report.skip("empty lines")
        elif found:
            process, type_, f, rest = found.groups()
            if not process.isdecimal():
                yield Event(None, type_, f, None, NO_FORM, number)
                continue
            value = next((form for form in Reader(f"[[{rest or 'nil'}]]").forms()), NO_FORM)
            first = (items(value) or (NO_FORM,))[0]
            yield Event(int(process), type_, f, None, _at_line(first, number), number)
        elif OTHER_LINE.fullmatch(line.strip()):
            report.skip("lines of the log that tell no event")
        else:
            raise Fault("bad-line", number, "the line tells no event")


def _at_line(form: Form, line: int) -> Form:
    value = form.value
    return Form(tuple(_at_line(item, line) for item in value) if isinstance(value, tuple) else value, line, form.kind)


def read_events(text: str, report: Report) -> list[Event]:
    """The events of EDN maps, or of a log if the text begins with neither a bracket nor a comment."""
    if re.match(r"[\s,]*([{\[(#;]|\Z)", text):
        return [_event(form) for form in Reader(text).forms()]
    return list(_log_events(text, report))


class Workload:
    """What the operations of a history mean, by the functions that it uses."""

    def __init__(self, events: list[Event], options: Options, report: Report) -> None:
        begun = [event for event in events if event.process is not None and event.type == "invoke"]
        used = {event.f for event in begun}
        self.options, self.report = options, report
        self.is_set = "add" in used or any(
            event.f in READS and "set" in (event.value.kind, _last(event.value).kind) for event in events)
        self.is_list = bool({"txn", "append"} & used) and not any(
            event.f == "append" and isinstance(event.value.value, str) for event in begun)
        self.is_independent = bool(begun) and all(map(_names_key, begun))
        if self.is_independent:
            report.assume("each value [k v] names an independent key")
        elif not self.is_set and "txn" not in used and not any(event.key for event in begun):
            report.assume(f'all calls are on one key, "{REGISTER.decode()}"')
        if self.is_set:
            report.assume("a read of a set is a read of each of its elements, all at times of their own:"
                          " 'legal' does not say that it read all of them at one moment")

    def steps(self, event: Event) -> list[Step]:
        """The steps of a call that begins."""
        if event.f == "txn":
            return self._transaction(event)
        if event.f not in ONE_KEY:
            raise Fault("unknown-operation", event.line, f":{event.f}")
        if event.key is not None:
            return [Step(event.f, some_bytes(event.key, "a key"), event.value, event.line)]
        if self.is_independent:
            key, value = pair(event.value, event.line, "the value of an independent key")
            return [Step(event.f, some_bytes(key, "a key"), value, event.line)]
        return [Step(event.f, REGISTER, event.value, event.line)]

    def _transaction(self, event: Event) -> list[Step]:
        steps = []
        for part in items(event.value) or ():
            parts = items(part) or ()
            if len(parts) != 3 or not isinstance(parts[0].value, Keyword):
                raise Fault("bad-value", event.line, "a transaction is steps [f key value]")
            f = parts[0].value.name.removeprefix(":")
            if f not in ("r", "w", "append"):
                raise Fault("unknown-operation", event.line, f":{f} in a transaction")
            steps.append(Step(f, some_bytes(parts[1], "a key"), parts[2], event.line))
        if len(steps) > 1:
            if not self.options.split:
                raise Fault("transaction", event.line, "several steps in a transaction: --split judges each alone")
            self.report.assume("the steps of a transaction are calls of their own, all at times of their own:"
                               " 'legal' does not say that transactions are atomic")
        return steps

    def operation(self, step: Step) -> Operation:
        """The operation of a step."""
        if step.f in READS:
            return Operation("get", step.key)
        if step.f in ("delete", "del"):
            return Operation("delete", step.key)
        if step.f == "add":
            return Operation("put", element_key(step.key, step.value), (b"",))
        if step.f == "cas":
            return self._compare_and_set(step)
        if step.f == "append":
            more = edn_text(step.value).encode() + b" " if self.is_list else some_bytes(step.value, "what is appended")
            return Operation("append", step.key, (more,))
        value = self.written(step.value)
        return Operation("delete", step.key) if value is None else Operation("put", step.key, (value,))

    def _compare_and_set(self, step: Step) -> Operation:
        old, new = (self.written(form) for form in pair(step.value, step.line, "the value of a :cas"))
        if new is None:
            return Operation("txn", step.key, (old, None, Change.KEEP))
        if old is None:
            return Operation("put-if-absent", step.key, (new,))
        return Operation("cas", step.key, (old, new))

    def written(self, form: Form) -> bytes | None:
        """What a key has, None for a missing value."""
        value = edn_bytes(form)
        return None if self.options.empty_is_missing and value == b"" else value

    def read(self, form: Form) -> bytes | None:
        """What a read of a key saw."""
        found = items(form) if self.is_list else None
        if found is None:
            return self.written(form)
        return "".join(edn_text(item) + " " for item in found).encode() or None


def _last(form: Form) -> Form:
    """The last item of a list, or the form itself."""
    found = items(form)
    return found[-1] if found else form


def _names_key(event: Event) -> bool:
    """Whether a call's value can be that of an independent key."""
    found = items(event.value)
    if event.f not in ONE_KEY or event.key is not None or event.value.kind != "list" or not found or len(found) != 2:
        return False
    return event.f != "cas" or len(items(found[1]) or ()) == 2


def element_key(key: bytes, element: Form) -> bytes:
    """The key that stands for an element of a set."""
    return (b"" if key == REGISTER else key + b" ") + edn_text(element).encode()


class Conversion:
    """Turns events into calls."""

    def __init__(self, workload: Workload, report: Report) -> None:
        self.workload, self.report = workload, report
        self.events = Events()
        self.calls: list[Call] = []
        self.set_reads: list[tuple[Begun, Step, Form, int, int]] = []
        self.elements: dict[bytes, set[bytes]] = {}
        self.parts: dict[tuple[int, int], int] = {}

    def take(self, event: Event) -> None:
        """Takes the next event."""
        if event.process is None:
            self.report.skip("events of the nemesis")
        elif event.type == "invoke":
            self.events.begin(event.process, event.line, self.workload.steps(event))
        elif event.type == "info":
            self._leave(self.events.leave(event.process, event.line))
        elif event.type == "fail":
            self._fail(self.events.end(event.process, event.line), event)
        else:
            begun = self.events.end(event.process, event.line)
            for place, (step, value) in enumerate(zip(begun.asked, self._values(begun, event))):
                self._return(self._part(begun, place), step, value, event.line)

    def _values(self, begun: Begun, event: Event) -> list[Form]:
        """The values with which the steps of a call returned."""
        if event.f == "txn":
            parts = [items(part) or () for part in items(event.value) or ()]
            if [len(part) for part in parts] != [3] * len(begun.asked):
                raise Fault("bad-value", event.line, "the transaction returned other steps than it began with")
            return [part[2] for part in parts]
        if event.key is None and self.workload.is_independent:
            key, value = pair(event.value, event.line, "the value of an independent key")
            if edn_bytes(key) != begun.asked[0].key:
                raise Fault("bad-value", event.line, "the call returned for another key than it began with")
            return [value]
        return [event.value]

    def _part(self, begun: Begun, place: int) -> Begun:
        """A step of a call: each but the first has a client of its own, as they overlap."""
        if place == 0:
            return begun
        part = (begun.client, place)
        if part not in self.parts:
            self.parts[part] = self.events.new_client()
        return Begun(self.parts[part], begun.begin, begun.line, begun.asked)

    def _return(self, begun: Begun, step: Step, value: Form, line: int) -> None:
        if step.f in READS and self.workload.is_set:
            self.set_reads.append((begun, step, value, self.events.time, line))
            return
        operation = self._operation(step)
        reply = {"get": lambda: value_word(self.workload.read(value)), "cas": lambda: truth(True),
                 "put-if-absent": lambda: truth(True), "txn": lambda: truth(True)}.get(operation.name, lambda: "ok")()
        self.calls.append(begun.returned(operation, reply, self.events.time, line))

    def _operation(self, step: Step) -> Operation:
        operation = self.workload.operation(step)
        if step.f == "add":
            self.elements.setdefault(step.key, set()).add(operation.key)
        return operation

    def _leave(self, begun: Begun) -> None:
        """A call whose outcome is unknown. A read that never returned has no effect."""
        for place, step in enumerate(begun.asked):
            if step.f in READS:
                self.report.skip("pending reads, which have no effect")
            else:
                self.calls.append(self._part(begun, place).pending(self._operation(step)))

    def _fail(self, begun: Begun, event: Event) -> None:
        """A call that had no effect."""
        if event.f == "cas" and self.workload.options.failed_cas_is_false:
            self.report.assume("a :cas that failed returned false")
            operation = self.workload.operation(begun.asked[0])
            self.calls.append(begun.returned(operation, truth(False), self.events.time, event.line))
            return
        self.report.assume("a call that failed (:fail) had no effect")
        self.report.skip("calls that failed")

    def _read_elements(self) -> None:
        """Turns each read of a set into reads of its elements."""
        read = [(begun, step, {element_key(step.key, item): None for item in items(value) or ()}, time, line)
                for begun, step, value, time, line in self.set_reads if self._is_set(value)]
        for _, step, found, _, _ in read:
            self.elements.setdefault(step.key, set()).update(found)
        for begun, step, found, time, line in read:
            for place, key in enumerate(sorted(self.elements.get(step.key, ()))):
                reply = value_word(b"" if key in found else None)
                self.calls.append(self._part(begun, place).returned(Operation("get", key), reply, time, line))

    def _is_set(self, value: Form) -> bool:
        if items(value) is None:
            raise Fault("bad-value", value.line, "a read of a set returned no elements")
        return True

    def finish(self) -> list[Call]:
        for begun in list(self.events.left()):
            self.report.assume("a call that never returned is pending")
            self._leave(begun)
        self._read_elements()
        return self.calls


def jepsen_calls(text: str, options: Options, report: Report) -> list[Call]:
    """The calls of a history as Jepsen writes it."""
    events = read_events(text, report)
    conversion = Conversion(Workload(events, options, report), report)
    for event in events:
        conversion.take(event)
    return conversion.finish()
