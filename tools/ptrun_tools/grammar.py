"""The words of JSON as patterns over bytes, and where a text breaks them."""

from __future__ import annotations

import re
from typing import Iterable, NamedTuple

# ptrun reads objects and lists in one another to this depth.
MAX_DEPTH = 127

_BLANKS = rb"[ \t\n\r]*"
_PLAIN_TEXT = rb'"[^"\\\x00-\x1f]*"'
_PLAIN_NUMBER = rb"-?(?:0|[1-9][0-9]{0,17})(?:\.[0-9]{1,17})?(?:[eE][+-]?[0-9]{1,2})?(?![0-9.eE])"
_PLAIN_SCALAR = rb"(?:" + _PLAIN_TEXT + rb"|" + _PLAIN_NUMBER + rb"|true|false|null)"
_COMMA = _BLANKS + rb"," + _BLANKS
_COLON = _BLANKS + rb":" + _BLANKS
_ESCAPE = (
    rb'\\(?:["\\/bfnrt]|u(?:[0-9a-ce-fA-CE-F][0-9a-fA-F]{3}|[dD][0-7][0-9a-fA-F]{2}'
    rb"|[dD][89abAB][0-9a-fA-F]{2}\\u[dD][c-fC-F][0-9a-fA-F]{2}))"
)


def _flat(item: bytes) -> bytes:
    """A list or an object of up to 32 parts of this form."""
    parts = lambda part: rb"(?:" + part + _BLANKS + rb"(?:," + _BLANKS + part + _BLANKS + rb"){0,31})?"
    return rb"(?:\[" + _BLANKS + parts(item) + rb"\]|\{" + _BLANKS + parts(_PLAIN_TEXT + _COLON + item) + rb"\})"


# Most of a document is small objects of texts: they are passed in one step. Repeats have bounds, since each costs memory.
SMALL_DEPTH = 3
_SMALL = _PLAIN_SCALAR
for _ in range(SMALL_DEPTH):
    _SMALL = rb"(?:" + _PLAIN_SCALAR + rb"|" + _flat(_SMALL) + rb")"
SMALL_VALUE = re.compile(_SMALL)
SMALL_ITEMS = re.compile(rb"(?:" + _SMALL + _COMMA + rb"){1,64}")
SMALL_MEMBERS = re.compile(rb"(?:" + _PLAIN_TEXT + _COLON + _SMALL + _COMMA + rb"){1,64}")

# An opening bracket, with the first name where it is an object's.
_OPENING = rb"(?:\[|\{" + _BLANKS + _PLAIN_TEXT + _BLANKS + rb":)" + _BLANKS
OPENING = re.compile(_OPENING)
OPENINGS = re.compile(rb"(?:" + _OPENING + rb"){%d,%d}" % (SMALL_DEPTH + 1, MAX_DEPTH + SMALL_DEPTH))
CLOSINGS = re.compile(rb"[\]}]*")

SKIP = re.compile(_BLANKS)
PAST_COLON = re.compile(_COLON)
PAST_COMMA = re.compile(_BLANKS + rb",?" + _BLANKS)
SCALAR = re.compile(_PLAIN_SCALAR)
# What is plain in an object, a name with its value where that is a scalar, and in a list, an item that is small.
MEMBER = re.compile(rb"(" + _PLAIN_TEXT + rb")" + _COLON + rb"(?:(" + _PLAIN_SCALAR + rb")" + _BLANKS + rb",?" + _BLANKS + rb")?")
ITEM = re.compile(rb"(" + _SMALL + rb")" + _BLANKS + rb",?" + _BLANKS)
NUMBER = re.compile(rb"-?(?:0|[1-9][0-9]*)(?:\.[0-9]+)?(?:[eE][+-]?[0-9]+)?(?![0-9A-Za-z_.+-])")
WORD = re.compile(rb"(?:true|false|null)(?![0-9A-Za-z_])")
WRONG_WORD = re.compile(rb"[A-Za-z_][0-9A-Za-z_]{0,40}")
_TEXT_PART = re.compile(rb'[^"\\\x00-\x1f]*(?:' + _ESCAPE + rb'[^"\\\x00-\x1f]*){0,256}')


def members_but(names: Iterable[str]) -> re.Pattern[bytes]:
    """A pattern of members of small values, of none of these names."""
    other = rb'"(?!(?:' + "|".join(names).encode() + rb')")[^"\\\x00-\x1f]*"'
    return re.compile(rb"(?:" + other + _COLON + _SMALL + _COMMA + rb"){1,64}")


class Place(NamedTuple):
    """A place in a text: its line and its column in characters, both from 1."""

    line: int
    column: int


class NotJson(Exception):
    """The bytes are no JSON, or none that ptrun reads: why, and at which byte."""

    def __init__(self, position: int, reason: str):
        super().__init__(reason)
        self.position = position
        self.reason = reason


def place_of(data: bytes, position: int) -> Place:
    """The line and column of a byte."""
    start = data.rfind(b"\n", 0, position) + 1
    column = len(data[start:position].decode("utf-8", "replace")) + 1
    return Place(data.count(b"\n", 0, position) + 1, column)


def skip(data: bytes, position: int) -> int:
    """The first byte from here on that is no blank."""
    return SKIP.match(data, position).end()


def text_end(data: bytes, start: int) -> int:
    """Where the text ends that begins with the quote at `start`."""
    position = start + 1
    while True:
        end = _TEXT_PART.match(data, position).end()
        following = data[end:end + 1]
        if following == b'"':
            return end + 1
        if end > position and following == b"\\":
            position = end
            continue
        raise _text_fault(data, start, end)


def _text_fault(data: bytes, start: int, position: int) -> NotJson:
    if position == len(data):
        return NotJson(start, "this text is never closed by a double quote")
    if data[position] == ord("\\"):
        if re.match(rb"\\u[dD][89a-fA-F]", data[position:position + 4]):
            return NotJson(position, "this escape is half of a pair, and its other half isn't beside it")
        return NotJson(position, r"this is no escape of JSON: there are \" \\ \/ \b \f \n \r \t and \u with four digits")
    if data[position] == ord("\n"):
        return NotJson(start, r"this text isn't closed in its line; a line feed in a text is written \n")
    return NotJson(position, f"a control character in a text is written \\u{data[position]:04x}")
