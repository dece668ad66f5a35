"""Foreign values as bytes."""

from __future__ import annotations

import json

from .calls import Fault
from .edn import Form, Keyword


def edn_text(form: Form) -> str:
    """A value as EDN writes it, without commas."""
    value = form.value
    if value is None or isinstance(value, bool):
        return {None: "nil", True: "true", False: "false"}[value]
    if isinstance(value, str):
        return json.dumps(value)
    if isinstance(value, Keyword):
        return value.name
    if isinstance(value, tuple):
        parts = [edn_text(item) for item in value]
        if form.kind == "set":
            parts.sort()
        opening, closing = {"list": "[]", "map": "{}", "set": ("#{", "}")}[form.kind]
        return opening + " ".join(parts) + closing
    return repr(value)


def edn_bytes(form: Form) -> bytes | None:
    """The bytes of a value: those of a string itself, and of any other value its text. None stands for nil."""
    if form.value is None:
        return None
    return form.value.encode("utf-8", "surrogatepass") if isinstance(form.value, str) else edn_text(form).encode()


def some_bytes(form: Form, what: str) -> bytes:
    value = edn_bytes(form)
    if value is None:
        raise Fault("bad-value", form.line, f"nil stands for {what}")
    return value


def pair(form: Form | None, line: int, what: str) -> tuple[Form, Form]:
    """The two items of a list or vector."""
    if form is None or form.kind != "list" or not isinstance(form.value, tuple) or len(form.value) != 2:
        raise Fault("bad-value", form.line if form else line, f"{what} is two values in brackets")
    return form.value[0], form.value[1]


def items(form: Form) -> tuple[Form, ...] | None:
    """The items of a list, vector or set, or None if the value is no such."""
    return form.value if form.kind in ("list", "set") and isinstance(form.value, tuple) else None
