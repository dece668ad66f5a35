"""JSON values one after the other, or in one array, with their lines."""

from __future__ import annotations

import base64
import binascii
import json
import re
from collections.abc import Iterator
from dataclasses import dataclass
from typing import Any

from .calls import Fault

BETWEEN = re.compile(r"[\s,]*")


@dataclass(frozen=True, slots=True)
class Fields:
    """The fields of a JSON object by their names in small letters, and the line on which it begins."""
    by_name: dict[str, Any]
    line: int

    def get(self, *names: str) -> Any:
        """The first field that is there, or None."""
        return next((self.by_name[name] for name in names if name in self.by_name), None)

    def has(self, *names: str) -> bool:
        return any(name in self.by_name for name in names)

    def inner(self, *names: str) -> Fields:
        """The object in a field; an empty one if there is none."""
        found = self.get(*names)
        if found is not None and not isinstance(found, dict):
            raise Fault("bad-value", self.line, f"{names[0]} is no object")
        return Fields(found or {}, self.line)

    def number(self, *names: str) -> int:
        """The time or number in a field."""
        found = self.get(*names)
        if isinstance(found, bool) or not isinstance(found, int) or found < 0:
            raise Fault("bad-number", self.line, f"{names[0]} is no number of 0 or more")
        return found

    def some(self, name: str, *others: str) -> bytes:
        """The bytes in a field that must be there."""
        value = value_bytes(self.get(name, *others), self.line)
        if value is None:
            raise Fault("bad-value", self.line, f"there is no {name}")
        return value


def _small(pairs: list[tuple[str, Any]]) -> dict[str, Any]:
    fields = {name.lower(): value for name, value in pairs}
    if len(fields) < len(pairs):
        raise ValueError("a name stands twice in an object")
    return fields


def _constant(name: str) -> Any:
    raise ValueError(f"{name} is no value of JSON")


def read_objects(text: str) -> Iterator[Fields]:
    """The objects of a text: one after the other, or those of one array."""
    decoder = json.JSONDecoder(object_pairs_hook=_small, parse_constant=_constant)
    at = re.compile(r"\s*").match(text).end()  # type: ignore[union-attr]
    line = 1 + text.count("\n", 0, at)
    closing = "]" if text[at:at + 1] == "[" else ""
    at += len(closing)
    while True:
        space = BETWEEN.match(text, at)
        assert space
        line += space[0].count("\n")
        at = space.end()
        if at == len(text) or (closing and text[at] == closing):
            if text[at:].strip() != closing:
                raise Fault("bad-json", line, "the array has no end, or something stands behind it")
            return
        try:
            value, end = decoder.raw_decode(text, at)
        except (ValueError, RecursionError) as fault:
            raise Fault("bad-json", line, str(fault)) from None
        if not isinstance(value, dict):
            raise Fault("bad-json", line, "it is no object")
        yield Fields(value, line)
        line += text.count("\n", at, end)
        at = end


def value_bytes(value: Any, line: int) -> bytes | None:
    """The bytes of a value: those of a string, of {"base64": TEXT}, or of the text of any other value. None stands
    for null."""
    if value is None:
        return None
    if isinstance(value, str):
        return value.encode("utf-8", "surrogatepass")
    if isinstance(value, dict) and list(value) == ["base64"] and isinstance(value["base64"], str):
        try:
            return base64.b64decode(value["base64"], validate=True)
        except (binascii.Error, ValueError):
            raise Fault("bad-value", line, "no base64") from None
    return json.dumps(value, separators=(",", ":")).encode()
