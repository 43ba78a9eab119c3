"""The classes, directors and codes, as schema/ptrun.schema.json and docs/FORMAT.md tell them.

Nothing of them is written here a second time, so a new actor or code needs no change of the tools.
"""

from __future__ import annotations

import difflib
import json
import re
from dataclasses import dataclass
from functools import lru_cache
from pathlib import Path
from typing import Iterable, Iterator

ROOT = Path(__file__).resolve().parents[2]
SCHEMA = ROOT / "schema" / "ptrun.schema.json"
FORMAT = ROOT / "docs" / "FORMAT.md"


@dataclass(frozen=True)
class PortRow:
    """A port of a class: `[1..]` and `[0..]` are multiports with that many channels at least."""

    name: str
    type: str
    optional: bool
    channels: str

    @property
    def is_output(self) -> bool:
        return self.name.lower().endswith("output")

    @property
    def is_multiport(self) -> bool:
        return bool(self.channels)

    def __str__(self) -> str:
        return f"{self.name}{'?' if self.optional else ''}{self.channels} {self.type}".strip()


@dataclass(frozen=True)
class ParameterRow:
    """A parameter of a class: what it means, and its words where it is taken as it is written."""

    name: str
    meaning: str
    words: tuple[str, ...] = ()

    @property
    def is_required(self) -> bool:
        return "Required" in self.meaning


@dataclass(frozen=True)
class ClassRow:
    """A class of actors: what it does, its ports and parameters, and where it may stand."""

    name: str
    meaning: str
    ports: tuple[PortRow, ...]
    declared: str
    parameters: tuple[ParameterRow, ...]
    directors: tuple[str, ...]

    def port(self, name: str) -> PortRow | None:
        return next((port for port in self.ports if port.name == name), None)


@lru_cache(maxsize=None)
def _definitions() -> dict:
    return json.loads(SCHEMA.read_text(encoding="utf-8"))["$defs"]


def _described(part: object) -> Iterator[tuple[str, str]]:
    """Each constant of a part of the schema that has a description."""
    if isinstance(part, dict):
        if "const" in part and "description" in part:
            yield part["const"], part["description"]
        for inner in part.values():
            yield from _described(inner)
    elif isinstance(part, list):
        for inner in part:
            yield from _described(inner)


def _written(part: object) -> Iterator[tuple[str, tuple[str, ...]]]:
    """The words that parameters may have, by their names."""
    if isinstance(part, dict):
        try:
            yield part["if"]["properties"]["name"]["const"], tuple(part["then"]["properties"]["value"]["enum"])
        except KeyError:
            pass
        for inner in part.values():
            yield from _written(inner)
    elif isinstance(part, list):
        for inner in part:
            yield from _written(inner)


_PORT = re.compile(r"(\w+)(\?)?(\[\d+\.\.\])? ?(.*)")


def _class_row(name: str) -> ClassRow:
    text = _definitions()[name].get("description", "")
    meaning, _, rest = text.partition(" Ports: ")
    listed, _, under = rest.partition(". Under ")
    ports, declared = [], ""
    for part in listed.rstrip(".").split("; "):
        if part.startswith("declared"):
            declared = part
        elif match := _PORT.fullmatch(part):
            ports.append(PortRow(match[1], match[4], bool(match[2]), match[3] or ""))
    words = dict(_written(_definitions()[name]))
    described = [pair for pair in _described(_definitions()[name]) if pair[0].isidentifier()]
    parameters = tuple(ParameterRow(*pair, words.get(pair[0], ())) for pair in described)
    return ClassRow(name, meaning, tuple(ports), declared, parameters, tuple(under.rstrip(".").split(", ")))


@lru_cache(maxsize=None)
def classes() -> dict[str, ClassRow]:
    """The classes of actors by name."""
    named = [name for name, _ in _described(_definitions()["entity"]["properties"]["class"])]
    return {name: _class_row(name) for name in named if name not in ("Composite", "Modal")}


@lru_cache(maxsize=None)
def directors() -> dict[str, str]:
    """What each director is."""
    return dict(_described(_definitions()["director"]["properties"]["class"]))


@lru_cache(maxsize=None)
def director_parameters(director: str) -> tuple[ParameterRow, ...]:
    found = _described(_definitions().get(f"parametersOf{director}", {}))
    return tuple(ParameterRow(*pair) for pair in found)


def nearest(word: str, words: Iterable[str]) -> str | None:
    """The word that is most like this one, if any is: letters of the other case count as nearly the same."""
    known = list(dict.fromkeys(words))
    lowered = {other.lower(): other for other in reversed(known)}
    if word.lower() in lowered:
        return lowered[word.lower()]
    close = difflib.get_close_matches(word[:200], known[:5000], 1, 0.6)
    return close[0] if close else None


@dataclass(frozen=True)
class CodeRow:
    """A refusal or a run fault: its name, and when it is told."""

    code: int
    name: str
    meaning: str


_CODE = re.compile(r"\|\s*`?(\d\d) (\w+)`?\s*\|\s*(.*?)\s*\|")


@lru_cache(maxsize=None)
def codes() -> dict[int, CodeRow]:
    """The codes of the tables in docs/FORMAT.md."""
    found = {}
    for line in FORMAT.read_text(encoding="utf-8").splitlines():
        if match := _CODE.match(line):
            text = re.sub(r"\[([^\]]*)\]\([^)]*\)", r"\1", match[3]).replace("`", "")
            # Which path the refusal's line has is of no use where the place itself is shown.
            text = text.split(". The path")[0]
            found[int(match[1])] = CodeRow(int(match[1]), match[2], text)
    return found
