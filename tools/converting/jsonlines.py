"""Histories in JSON: an object for each call, or Porcupine's operations and events."""

from __future__ import annotations

from collections.abc import Hashable
from typing import Any

from .calls import Call, Fault, Operation, Options, Report
from .events import Events
from .stores import ASKS_TRUTH, ASKS_VALUE, read_operation, read_reply, with_reads
from .texts import Fields, read_objects

READS = ("get",)
EVENT_KINDS = {"call": "call", "callevent": "call", "invoke": "call", "return": "return", "returnevent": "return",
               "ok": "return", "fail": "fail", "info": "info", "unknown": "info"}


def is_left_out(operation: Operation, is_pending: bool, report: Report) -> bool:
    """Whether a call has no effect and says nothing: a read without an end, or a transaction of nothing."""
    if is_pending and operation.name in READS:
        report.skip("pending reads, which have no effect")
        return True
    if operation.clauses == ():
        report.skip("transactions without a comparison, a write and a known read")
        return True
    return False


class Calls:
    """Calls with times of their own. Whoever leaves a call without an end and makes another counts as a new client."""

    def __init__(self, report: Report) -> None:
        self.report = report
        self.found: list[tuple[Hashable, int, Call]] = []

    def add(self, fields: Fields, who: Hashable, operation: Operation, times: tuple[int, int | None],
            reply: str | None) -> None:
        begin, end = times
        if is_left_out(operation, end is None, self.report):
            return
        call = Call(0, begin, end, operation, reply, (fields.line, fields.line))
        self.found.append((who, len(self.found), call))

    def numbered(self) -> list[Call]:
        """The calls, each client with a number."""
        clients: dict[Hashable, int] = {}
        calls, count = [], 0
        for who, _, call in sorted(self.found, key=lambda one: (one[2].begin, one[1])):
            if who not in clients:
                clients[who], count = count, count + 1
            calls.append(Call(clients[who], call.begin, call.end, call.operation, call.reply, call.lines))
            if call.end is None:
                del clients[who]
        return calls


def who_of(fields: Fields) -> Hashable:
    """The client or process that an object names."""
    who = fields.get("client", "clientid", "process")
    if not isinstance(who, int | str):
        raise Fault("bad-number", fields.line, "there is no client")
    return who


def _is_failed(fields: Fields, report: Report) -> bool:
    """Whether a call failed, and so had no effect."""
    failed = fields.get("fail", "failed")
    if failed not in (None, False, True):
        raise Fault("bad-value", fields.line, "fail is neither true nor false")
    if failed:
        report.assume("a call that failed had no effect")
        report.skip("calls that failed")
    return bool(failed)


def json_calls(text: str, options: Options, report: Report) -> list[Call]:
    """The calls of objects {"client", "begin", "end", "op", "key", "value", "reply"}."""
    calls = Calls(report)
    for fields in read_objects(text):
        who, operation, begin = who_of(fields), read_operation(fields, options), fields.number("begin", "start")
        end = None if fields.get("end") is None else fields.number("end")
        if _is_failed(fields, report):
            continue
        has_reply = end is not None or fields.get("reply") is not None
        if not has_reply and fields.get("reads") is not None:
            raise Fault("half-call", fields.line, "reads without an end and a reply")
        if end is None:
            report.assume("a call with a reply and without an end took effect with this reply or not at all"
                          if has_reply else "a call without an end is pending")
        reply = read_reply(operation, fields.get("reply"), options, fields.line) if has_reply else None
        calls.add(fields, who, with_reads(operation, fields), (begin, end), reply)
    return calls.numbered()


def _output(fields: Fields, name: str) -> Any:
    """What an operation returned, by the name that fits it."""
    if name in ASKS_TRUTH:
        return fields.get("ok", "reply", "value")
    return fields.get("reply", "value") if name in ASKS_VALUE else fields.get("reply")


def _operations(objects: list[Fields], options: Options, report: Report) -> list[Call]:
    """The calls of Porcupine's operations: {"ClientId", "Input", "Call", "Output", "Return"}."""
    calls = Calls(report)
    for fields in objects:
        who, operation = who_of(fields), read_operation(fields.inner("input"), options)
        begin = fields.number("call")
        end = None if fields.get("return") is None else fields.number("return")
        if end is None:
            report.assume("an operation without a return is pending")
        output = fields.inner("output")
        reply = None if end is None else read_reply(operation, _output(output, operation.name), options, fields.line)
        calls.add(fields, who, with_reads(operation, output), (begin, end), reply)
    return calls.numbered()


def _kind(fields: Fields) -> str:
    """The kind of an event: Go writes CallEvent as false and ReturnEvent as true."""
    kind = fields.get("kind", "event", "type")
    if isinstance(kind, bool):
        return "return" if kind else "call"
    found = EVENT_KINDS.get(kind.lower().lstrip(":")) if isinstance(kind, str) else None
    if found is None:
        raise Fault("bad-event", fields.line, f"{kind!r} is no kind of an event")
    return found


def _events(objects: list[Fields], options: Options, report: Report) -> list[Call]:
    """The calls of Porcupine's events: {"ClientId", "Kind", "Value", "Id"}. The order of events is their time."""
    report.assume("the events happened in the order of the file")
    events, callers, calls = Events(), {}, []

    def leave(operation: Operation, begun: Any) -> None:
        if not is_left_out(operation, True, report):
            calls.append(begun.pending(operation))

    for fields in objects:
        kind, call_id = _kind(fields), fields.number("id")
        value = fields.inner("value") if isinstance(fields.get("value"), dict) or not fields.has("op", "reply") \
            else fields
        if kind == "call":
            who = who_of(fields)
            if call_id in callers:
                raise Fault("two-open-calls", fields.line, f"the call {call_id} has not returned")
            events.begin(who, fields.line, read_operation(value, options))
            callers[call_id] = who
            continue
        if call_id not in callers:
            raise Fault("no-call", fields.line, f"no call {call_id} is open")
        who = callers.pop(call_id)
        if kind == "info":
            begun = events.leave(who, fields.line)
            leave(begun.asked, begun)
            continue
        begun = events.end(who, fields.line)
        if kind == "fail":
            report.assume("a call that failed had no effect")
            report.skip("calls that failed")
            continue
        reply = read_reply(begun.asked, _output(value, begun.asked.name), options, fields.line)
        operation = with_reads(begun.asked, value)
        if not is_left_out(operation, False, report):
            calls.append(begun.returned(operation, reply, events.time, fields.line))
    for begun in events.left():
        report.assume("a call that never returned is pending")
        leave(begun.asked, begun)
    return calls


def porcupine_calls(text: str, options: Options, report: Report) -> list[Call]:
    """The calls of Porcupine's operations or events."""
    objects = list(read_objects(text))
    read = _operations if objects and objects[0].has("call") else _events
    return read(objects, options, report)
