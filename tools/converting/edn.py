"""Reads EDN, the notation of Clojure's data, as far as histories use it."""

from __future__ import annotations

import re
from collections.abc import Iterator
from dataclasses import dataclass
from functools import lru_cache
from typing import NamedTuple

from .calls import Fault

TOKEN = re.compile(r"""
    (?P<space>(?:[\s,]+|;[^\n]*)*)
  (?:(?P<string>"(?:[^"\\]|\\.)*")
  | (?P<open>\#\{|[(\[{])
  | (?P<close>[)\]}])
  | (?P<discard>\#_)
  | (?P<tag>\#[A-Za-z][\w.*+!?$%&=<>/-]*)
  | (?P<char>\\(?:newline|space|tab|return|u[0-9a-fA-F]{4}|.))
  | (?P<atom>[^\s,"()\[\]{};\\]+)
  | \Z)
""", re.VERBOSE | re.DOTALL)
SPACE = re.compile(r"(?:[\s,]+|;[^\n]*)*")
NUMBER = re.compile(r"[+-]?\d+N?")
FLOAT = re.compile(r"[+-]?\d+(\.\d*)?([eE][+-]?\d+)?M?")
ESCAPES = {"n": "\n", "t": "\t", "r": "\r", "b": "\b", "f": "\f", '"': '"', "\\": "\\"}
MOST_DIGITS = 1000
CLOSING = {"(": ")", "[": "]", "{": "}", "#{": "}"}


@dataclass(frozen=True, slots=True)
class Keyword:
    """A keyword or a symbol, by its name; a keyword's begins with a colon."""
    name: str


class Form(NamedTuple):
    """A value, and the line on which it begins. Collections hold forms: a map its keys and values in turn."""
    value: object
    line: int
    kind: str = ""


def _string(text: str, line: int) -> str:
    def byte(escape: re.Match[str]) -> str:
        if escape[1]:
            return chr(int(escape[1], 16))
        if escape[2] not in ESCAPES:
            raise Fault("bad-edn", line, f"a string has the escape \\{escape[2]}")
        return ESCAPES[escape[2]]

    return re.sub(r"\\(?:u([0-9a-fA-F]{4})|(.))", byte, text[1:-1], flags=re.DOTALL)


@lru_cache
def _atom(text: str) -> object:
    if text in ("nil", "true", "false"):
        return {"nil": None, "true": True, "false": False}[text]
    if NUMBER.fullmatch(text):
        return int(text.rstrip("N"))
    if FLOAT.fullmatch(text):
        return float(text.rstrip("M"))
    return Keyword(text)


class Reader:
    """Reads the forms of a text, one after the other."""

    def __init__(self, text: str) -> None:
        self.text = text
        self.at = 0
        self.line = 1

    def _token(self) -> tuple[str, str, int]:
        """The kind, text and line of the next token; an empty kind at the end."""
        found = TOKEN.match(self.text, self.at)
        if not found:
            space = SPACE.match(self.text, self.at)
            assert space
            line = self.line + space[0].count("\n")
            raise Fault("bad-edn", line, f"no form begins with {self.text[space.end():space.end() + 20]!r}")
        self.at = found.end()
        if found[1]:
            self.line += found[1].count("\n")
        line, kind = self.line, found.lastgroup
        if kind is None or kind == "space":
            return "", "", line
        text = found[kind]
        if kind == "string":
            self.line += text.count("\n")
        return kind, text, line

    def forms(self) -> Iterator[Form]:
        """The forms at the top of the text. A list or vector that holds the whole history counts as its items."""
        while True:
            kind, text, line = self._token()
            if not kind:
                return
            if kind == "open" and text in "[(" :
                yield from self._items(CLOSING[text], line)
            elif kind == "discard":
                self._form(*self._token())
            else:
                yield self._form(kind, text, line)

    def _items(self, closing: str, opened: int) -> Iterator[Form]:
        """The forms up to a closing bracket."""
        while True:
            kind, text, line = self._token()
            if not kind:
                raise Fault("bad-edn", opened, f"the bracket that opens here has no {closing}")
            if kind == "close":
                if text != closing:
                    raise Fault("bad-edn", line, f"{text} stands for {closing}")
                return
            if kind == "discard":
                self._form(*self._token())
            else:
                yield self._form(kind, text, line)

    def _form(self, kind: str, text: str, line: int) -> Form:
        if kind == "string":
            return Form(_string(text, line), line)
        if kind == "atom":
            if len(text) > MOST_DIGITS:
                raise Fault("bad-number", line, f"a number or a word has more than {MOST_DIGITS} characters")
            return Form(_atom(text), line)
        if kind == "char":
            return Form(text[1:], line)
        if kind == "tag":
            return self._form(*self._token())
        if kind == "open":
            items = tuple(self._items(CLOSING[text], line))
            if text == "{" and len(items) % 2:
                raise Fault("bad-edn", line, "a map has a key without a value")
            return Form(items, line, {"(": "list", "[": "list", "{": "map", "#{": "set"}[text])
        raise Fault("bad-edn", line, f"no form begins with {text!r}" if kind else "the text ends within a form")


def map_of(form: Form) -> dict[str, Form]:
    """The values of a map by the names of its keywords, without their colons; those of other keys are left out."""
    items = form.value
    assert isinstance(items, tuple)
    return {key.value.name.removeprefix(":"): value for key, value in zip(items[::2], items[1::2])
            if isinstance(key.value, Keyword)}
