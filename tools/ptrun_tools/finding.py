"""What an answer of ptrun means for its document: a place in it, sentences, and the entities concerned."""

from __future__ import annotations

from dataclasses import dataclass, field
from typing import Iterable

from .document import Place, Value
from .library import nearest


@dataclass
class Finding:
    """Where the answer points to in the document, and what to say of it."""

    title: str
    meaning: str = ""
    # From which byte to which the answer points.
    span: tuple[int, int] | None = None
    # What is wrong there, and what would be right.
    remarks: list[str] = field(default_factory=list)
    # Other places, each with a word on it.
    others: list[tuple[Value, str]] = field(default_factory=list)
    # The paths of the entities to mark in a drawing.
    marks: list[str] = field(default_factory=list)

    @property
    def is_trouble(self) -> bool:
        """Whether the answer is anything but a run that ended by itself."""
        return self.title.split()[:2] not in [["end", word] for word in ("stop", "idle", "iterations", "inputs", "deadlock")]

    def points_to(self, value: Value | None) -> Finding:
        if value is not None:
            self.span = (value.start, value.end)
        return self

    def says(self, *remarks: str) -> Finding:
        self.remarks += [remark for remark in remarks if remark]
        return self


@dataclass(frozen=True)
class Remark:
    """Something wrong at a value, in one sentence."""

    value: Value
    text: str


def quoted(text: str) -> str:
    """A text of the document as part of a sentence: cut, and in one line."""
    shown = "".join(sign if sign.isprintable() else repr(sign)[1:-1] for sign in text[:80])
    return f"'{shown}{'...' if len(text) > 80 else ''}'"


def listed(words: Iterable[str], at_most: int = 12) -> str:
    """Words as part of a sentence: the first ones, and how many there are besides."""
    every = list(words)
    shown = ", ".join(every[:at_most])
    return shown + (f" and {len(every) - at_most:,} more" if len(every) > at_most else "") if every else "none"


def meant(word: str, words: Iterable[str]) -> str:
    """A question for the nearest word, or nothing."""
    near = nearest(word, words)
    return f"Did you mean {quoted(near)}?" if near and near != word else ""


def excerpt(data: bytes, span: tuple[int, int], place: Place, width: int = 100) -> list[str]:
    """The line of a place with signs below what is meant, cut to a width around it."""
    start = data.rfind(b"\n", 0, span[0]) + 1
    stop = data.find(b"\n", span[0])
    stop = len(data) if stop < 0 else stop
    first, last = max(start, span[0] - width // 2), min(stop, span[0] + width)
    shown = data[first:last].decode("utf-8", "replace").rstrip("\r")
    before = len(data[first:span[0]].decode("utf-8", "replace"))
    length = len(data[span[0]:min(span[1], last)].decode("utf-8", "replace"))
    shown = "".join(sign if sign.isprintable() else " " if sign == "\t" else "\N{REPLACEMENT CHARACTER}" for sign in shown)
    dots = "..." if first > start else ""
    head = f"{place.line:5} | "
    return [
        head + dots + shown + ("..." if last < stop else ""),
        " " * (len(head) - 2) + "| " + " " * (len(dots) + before) + "^" * max(1, length),
    ]
