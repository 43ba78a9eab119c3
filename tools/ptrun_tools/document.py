"""A JSON document that knows where each of its values stands.

The text is checked once from its front to its back, without recursion. After that values are visited on demand: only
those on the way to a place are taken apart, so a document of 16 MiB costs little more than its text.
"""

from __future__ import annotations

import json
import re
from bisect import bisect_left
from typing import Iterator, NamedTuple

from .checking import Check
from .grammar import ITEM, MEMBER, NUMBER, PAST_COLON, PAST_COMMA, SCALAR, SMALL_VALUE, NotJson, Place, place_of, skip, text_end

# Python's own reader of a value at a place in a text.
_READ = json.JSONDecoder().scan_once

__all__ = ["Document", "Member", "NotJson", "Place", "Value", "place_of"]


class Document:
    """The bytes of a document that is JSON."""

    def __init__(self, data: bytes):
        """Reads the bytes, and raises NotJson at the first place where they are no JSON."""
        self.data = data
        check = Check(data)
        try:
            check.run()
        except NotJson as fault:
            raise _first_fault(data, fault) from None
        fault = _first_fault(data, None)
        if fault:
            raise fault
        self._starts, self._ends = check.starts, check.ends

    @property
    def root(self) -> Value:
        return self.value_at(skip(self.data, 0))

    def place(self, position: int) -> Place:
        """The line and column of a byte."""
        return place_of(self.data, position)

    def value_at(self, position: int) -> Value:
        """The value that begins here."""
        return Value(self, position, self.end_of(position))

    def end_of(self, position: int) -> int:
        """Where the value ends that begins here."""
        sign = self.data[position]
        if sign in b"{[":
            number = bisect_left(self._starts, position)
            if number < len(self._starts) and self._starts[number] == position:
                return self._ends[number]
            return SMALL_VALUE.match(self.data, position).end()
        plain = SCALAR.match(self.data, position)
        if plain:
            return plain.end()
        return text_end(self.data, position) if sign == ord('"') else NUMBER.match(self.data, position).end()


def _first_fault(data: bytes, fault: NotJson | None) -> NotJson | None:
    """This fault, or the first bytes that are no UTF-8 if they come before it."""
    try:
        data.decode("utf-8")
    except UnicodeDecodeError as error:
        if fault is None or error.start < fault.position:
            return NotJson(error.start, f"byte {data[error.start]:#04x} is no UTF-8 here")
    return fault


class Value(NamedTuple):
    """A value of a document, from its first byte up to the byte after its last."""

    document: Document
    start: int
    end: int

    @property
    def kind(self) -> str:
        """One of object, list, text, truth, null and number."""
        sign = self.document.data[self.start]
        return _KINDS.get(sign, "number")

    def spans(self, passed: re.Pattern[bytes] | None = None) -> Iterator[tuple[int, int, int, int]]:
        """Of each member of an object where its name begins and ends, and its value. What matches `passed` may be left out."""
        if self.kind != "object":
            return
        document, data = self.document, self.document.data
        position = skip(data, self.start + 1)
        while data[position] != ord("}"):
            if passed and (run := passed.match(data, position)):
                position = run.end()
            elif plain := MEMBER.match(data, position):
                start, end = plain.span(2)
                position_after = plain.end()
                if start < 0:
                    start = position_after
                    end = document.end_of(start)
                    position_after = PAST_COMMA.match(data, end).end()
                yield position, plain.end(1), start, end
                position = position_after
            else:
                key_end = document.end_of(position)
                start = PAST_COLON.match(data, key_end).end()
                end = document.end_of(start)
                yield position, key_end, start, end
                position = PAST_COMMA.match(data, end).end()

    def members(self) -> Iterator[Member]:
        """The members of an object in their order, repeats among them; none of another value."""
        for key, key_end, start, end in self.spans():
            yield Member(Value(self.document, key, key_end), Value(self.document, start, end))

    def items(self) -> Iterator[Value]:
        """The items of a list in their order; none of another value."""
        if self.kind != "list":
            return
        document, data = self.document, self.document.data
        position = skip(data, self.start + 1)
        while data[position] != ord("]"):
            if plain := ITEM.match(data, position):
                yield Value(document, position, plain.end(1))
                position = plain.end()
            else:
                end = document.end_of(position)
                yield Value(document, position, end)
                position = PAST_COMMA.match(data, end).end()

    def get(self, name: str) -> Value | None:
        """The member of this name; of several the last one counts."""
        found = None
        for member in self.members():
            if member.name == name:
                found = member.value
        return found

    def text(self) -> str | None:
        """What a text says, or None of another value."""
        if self.kind != "text":
            return None
        written = self.document.data[self.start:self.end]
        return json.loads(written) if b"\\" in written else written[1:-1].decode("utf-8")

    def plain(self) -> object:
        """The value as Python has it. For values of a few thousand bytes: a whole number may not have many more digits."""
        return _READ(self.document.data[self.start:self.end].decode("utf-8"), 0)[0]

    def raw(self) -> str:
        """The value as it stands in the document."""
        return self.document.data[self.start:self.end].decode("utf-8")

    def place(self) -> Place:
        return self.document.place(self.start)


class Member(NamedTuple):
    """A member of an object: its name, which is a value with a place too, and its value."""

    key: Value
    value: Value

    @property
    def name(self) -> str:
        return self.key.text()


_KINDS = {ord("{"): "object", ord("["): "list", ord('"'): "text", ord("t"): "truth", ord("f"): "truth", ord("n"): "null"}
