"""The check of a whole JSON text."""

from __future__ import annotations

import re
from array import array
from typing import Sequence

from .grammar import (
    CLOSINGS, MAX_DEPTH, NUMBER, OPENING, OPENINGS, SMALL_DEPTH, SMALL_ITEMS, SMALL_MEMBERS, SMALL_VALUE, WORD, WRONG_WORD,
    NotJson, place_of, skip, text_end,
)

_CLOSING = bytes.maketrans(b"[{", b"]}")


class Check:
    """The check of a whole text, which keeps where its larger lists and objects end."""

    def __init__(self, data: bytes):
        self.data = data
        self.starts = array("Q")
        self.ends = array("Q")
        # What is open: the number of each in `starts`, and by which bracket it closes.
        self.open: list[int] = []
        self.closers = bytearray()

    def run(self) -> None:
        position = self.value(skip(self.data, 0))
        while self.open:
            position = self.after(position) if self.told else self.part(position)
        position = skip(self.data, position)
        if position < len(self.data):
            raise NotJson(position, "the document ends before this: nothing but blanks may follow it")

    # `told` says whether a value was just read, so that a comma or a closing bracket comes next.
    told = False
    # `first` says whether a list or an object was just opened, so that it may be closed.
    first = False

    def value(self, position: int) -> int:
        """Passes a value, or opens a list or an object."""
        data = self.data
        while run := OPENINGS.match(data, position):
            if len(self.open) == MAX_DEPTH:
                break
            position = self.opened_run(run)
        if len(self.open) <= MAX_DEPTH - SMALL_DEPTH:
            small = SMALL_VALUE.match(data, position)
            if small:
                self.told = True
                return small.end()
        sign = data[position:position + 1]
        if sign in (b"{", b"["):
            return self.opened(position)
        self.told = True
        if sign == b'"':
            return text_end(data, position)
        if number := NUMBER.match(data, position):
            self.check_range(number)
            return number.end()
        if word := WORD.match(data, position):
            return word.end()
        raise self.no_value(position)

    def opened(self, position: int) -> int:
        if len(self.open) == MAX_DEPTH:
            raise NotJson(position, f"lists and objects stand in one another at most {MAX_DEPTH} deep")
        self.open_all([position])
        self.first = True
        return skip(self.data, position + 1)

    def opened_run(self, run: re.Match[bytes]) -> int:
        """Opens a run of lists and objects, each the first part of the one before, but the innermost: SMALL_VALUE takes those."""
        first, last = run.span()
        if run[0].count(b"[") == last - first:
            starts = range(first, last)
        else:
            starts = [opening.start() for opening in OPENING.finditer(self.data, first, last)]
        count = min(len(starts) - SMALL_DEPTH, MAX_DEPTH - len(self.open))
        self.open_all(starts[:count])
        return starts[count]

    def open_all(self, starts: Sequence[int]) -> None:
        self.open.extend(range(len(self.starts), len(self.starts) + len(starts)))
        self.closers += bytes(map(self.data.__getitem__, starts)).translate(_CLOSING)
        self.starts.extend(starts)
        self.ends.frombytes(bytes(len(starts) * self.ends.itemsize))
        self.told, self.first = False, False

    def in_object(self) -> bool:
        return self.closers[-1] == ord("}")

    def part(self, position: int) -> int:
        """Passes items or members at the place where one may begin."""
        of_object = self.in_object()
        if len(self.open) <= MAX_DEPTH - SMALL_DEPTH:
            small = (SMALL_MEMBERS if of_object else SMALL_ITEMS).match(self.data, position)
            if small:
                self.first = False
                return small.end()
        if self.first and self.data[position:position + 1] in (b"]", b"}"):
            return self.closed(position)
        return self.value(self.key(position) if of_object else position)

    def key(self, position: int) -> int:
        """Passes a name and its colon."""
        if self.data[position:position + 1] != b'"':
            raise self.no_key(position)
        position = skip(self.data, text_end(self.data, position))
        if self.data[position:position + 1] != b":":
            raise NotJson(position, self.wanted("a colon is wanted here, after a name", position))
        return skip(self.data, position + 1)

    def after(self, position: int) -> int:
        """Passes what stands after a value: a comma, or the end of the list or object."""
        position = skip(self.data, position)
        sign = self.data[position:position + 1]
        if sign == b",":
            self.told, self.first = False, False
            return skip(self.data, position + 1)
        if sign in (b"]", b"}"):
            return self.closed(position)
        closing = "}" if self.in_object() else "]"
        raise NotJson(position, self.wanted(f"a comma or a closing {closing} is wanted here", position))

    def closed(self, position: int) -> int:
        """Passes a run of closing brackets."""
        run = CLOSINGS.match(self.data, position, position + len(self.open))[0]
        wanted = self.closers[:-len(run) - 1:-1]
        if run != wanted:
            wrong = next(number for number, signs in enumerate(zip(run, wanted)) if signs[0] != signs[1])
            raise NotJson(position + wrong, f"{chr(wanted[wrong])} is wanted here")
        ends = range(position + len(run), position, -1)
        closed = self.open[-len(run):]
        if closed[-1] - closed[0] == len(run) - 1:
            self.ends[closed[0]:closed[-1] + 1] = array("Q", ends)
        else:
            for number, end in zip(closed, ends):
                self.ends[number] = end
        del self.open[-len(run):], self.closers[-len(run):]
        self.told = True
        return position + len(run)

    def check_range(self, number: re.Match[bytes]) -> None:
        if number.end() - number.start() > 300 or b"e" in number[0] or b"E" in number[0]:
            if float(number[0]) in (float("inf"), float("-inf")):
                raise NotJson(number.start(), "this number is larger than JSON's readers take")

    def wanted(self, text: str, position: int) -> str:
        """The text, with what is still open where the document ends."""
        if position < len(self.data) or not self.open:
            return text
        line = place_of(self.data, self.starts[self.open[-1]]).line
        return f"{text}: the document ends, and what is opened in line {line} isn't closed"

    def no_key(self, position: int) -> NotJson:
        if self.data[position:position + 1] == b"}":
            return NotJson(position, "a comma stands before this closing bracket: leave the comma out")
        if self.data[position:position + 1] in (b"/", b"#"):
            return NotJson(position, "JSON has no comments")
        return NotJson(position, self.wanted("the name of a member is wanted here, in double quotes", position))

    def no_value(self, position: int) -> NotJson:
        sign = self.data[position:position + 1]
        if sign in (b"]", b"}"):
            reason = "a value is wanted before this closing bracket"
            if self.open and not self.in_object():
                reason = "a comma stands before this closing bracket: leave the comma out"
        elif sign == b"'":
            reason = "a text stands in double quotes"
        elif sign in (b"/", b"#"):
            reason = "JSON has no comments"
        elif sign.isdigit() or sign in (b"-", b"+", b"."):
            reason = "this is no number of JSON, as 12, -3 or 0.5"
        elif word := WRONG_WORD.match(self.data, position):
            reason = f"'{word[0].decode()}' is no value of JSON: texts stand in double quotes, truth values are true and false"
        elif self.data[position:position + 3] == b"\xef\xbb\xbf":
            reason = "a byte order mark stands here: save the document as UTF-8 without one"
        else:
            reason = "a value is wanted here"
        return NotJson(position, self.wanted(reason, position))
