"""Operations and replies of a key-value store as JSON writes them."""

from __future__ import annotations

from dataclasses import replace
from typing import Any

from .calls import MOST_TIMES, Change, Fault, Operation, Options, truth, value_word
from .texts import Fields, value_bytes

NAMES = {
    "get": ("get", "read"), "put": ("put", "set", "write"), "delete": ("delete", "del", "remove"),
    "cas": ("cas", "compare-and-set"), "append": ("append",), "put-if-absent": ("put-if-absent", "setnx"),
    "get-and-set": ("get-and-set", "getset"), "increment": ("increment", "incr", "incrby"), "txn": ("txn",),
    "txn-get": ("txn-get",),
}
BY_NAME = {other: name for name, others in NAMES.items() for other in others}
ASKS_VALUE, ASKS_TRUTH = {"get", "get-and-set", "txn-get", "increment"}, {"cas", "put-if-absent", "txn"}


def _held(fields: Fields, name: str) -> bytes | None:
    """The value in a field of a transaction, None for a missing one."""
    return value_bytes(fields.get(name), fields.line)


def _clauses(fields: Fields, role: str, name: str) -> list[tuple[str, bytes, bytes | None]]:
    """The clauses of a role: a field with a list of objects {"key": KEY, "value": VALUE}."""
    found = fields.get(name)
    if found is None:
        return []
    if not isinstance(found, list) or not all(isinstance(one, dict) for one in found):
        raise Fault("bad-value", fields.line, f"{name} is no list of objects with a key and a value")
    objects = [Fields(one, fields.line) for one in found]
    return [(role, one.some("key"), _held(one, "value")) for one in objects]


def _transaction(fields: Fields) -> Operation:
    """A transaction over several keys."""
    if not fields.has("if", "then", "else", "reads"):
        raise Fault("bad-value", fields.line, "a transaction without a key and without if, then, else and reads")
    clauses = [clause for role in ("if", "then", "else") for clause in _clauses(fields, role, role)]
    return Operation("txn", b"", (), tuple(clauses))


def with_reads(operation: Operation, output: Fields) -> Operation:
    """A transaction over several keys with what its reads returned, as the reply says; any other operation as it is."""
    if operation.clauses is None:
        return operation
    return replace(operation, clauses=operation.clauses + tuple(_clauses(output, "get", "reads")))


def read_operation(fields: Fields, options: Options) -> Operation:
    """The operation of an object."""
    asked = fields.get("op", "f", "operation")
    name = BY_NAME.get(asked.lower()) if isinstance(asked, str) else None
    if name is None:
        raise Fault("unknown-operation", fields.line, repr(asked))
    if name == "txn" and not fields.has("key"):
        return _transaction(fields)
    key = fields.some("key")
    if name in ("get", "delete"):
        return Operation(name, key)
    if name == "cas":
        return Operation(name, key, (fields.some("old", "from"), fields.some("new", "to")))
    if name in ("txn", "txn-get"):
        changes = [_held(fields, branch) if fields.has(branch) else Change.KEEP for branch in ("then", "else")]
        return Operation(name, key, (_held(fields, "old"), *changes))
    value = b"1" if name == "increment" and not fields.has("value") else fields.some("value")
    if name == "increment" and not (value.isdigit() and len(value) <= 20 and int(value) < MOST_TIMES):
        raise Fault("bad-number", fields.line, "what is added is no number below 2^64")
    if name == "put" and not value and options.empty_is_missing:
        return Operation("delete", key)
    return Operation(name, key, (value,))


def read_reply(operation: Operation, reply: Any, options: Options, line: int) -> str:
    """The reply to an operation."""
    if operation.name == "increment" and reply is False:
        return truth(False)
    if operation.name in ASKS_VALUE:
        value = value_bytes(reply, line)
        return value_word(None if options.empty_is_missing and value == b"" else value)
    if operation.name in ASKS_TRUTH:
        if not isinstance(reply, bool):
            raise Fault("bad-reply", line, f"the reply of {operation.name} is neither true nor false")
        return truth(reply)
    if not (reply is None or reply is True or (isinstance(reply, str) and reply.lower() in ("", "ok"))):
        raise Fault("bad-reply", line, f"the reply of {operation.name} is not ok")
    return "ok"
