"""Parameters that have to agree with one another (code 29)."""

from __future__ import annotations

import re
from typing import Callable

from .expression import Fault, Token, evaluate, parse
from .library import ParameterRow
from .model import Entity, Property
from .scopes import values_around

Values = dict[str, Token]

# The parameter that is told, the parameters that the rule is about, the rule, and the rule in words.
_RULES: list[tuple[str, tuple[str, ...], Callable[[Values], bool], str]] = [
    ("phase", ("phase", "factor"), lambda of: 0 <= of["phase"] < of["factor"], "phase is from 0 to factor minus 1"),
    (
        "blockSize", ("blockSize", "numberOfTimes"), lambda of: of["blockSize"] * of["numberOfTimes"] <= 1_000_000,
        "blockSize times numberOfTimes is at most 1,000,000",
    ),
    ("bottom", ("bottom", "top"), lambda of: of["bottom"] <= of["top"], "bottom is at most top"),
    (
        "initialQueueCapacity", ("initialQueueCapacity", "maximumQueueCapacity"),
        lambda of: of["initialQueueCapacity"] <= of["maximumQueueCapacity"], "initialQueueCapacity is at most maximumQueueCapacity",
    ),
    (
        "offsets", ("offsets", "period"), lambda of: all(0 <= offset < of["period"] for offset in of["offsets"]),
        "offsets are from 0 to period minus 1",
    ),
    (
        "offsets", ("offsets",), lambda of: all(one < other for one, other in zip(of["offsets"], of["offsets"][1:])),
        "offsets ascend strictly",
    ),
    ("values", ("values", "offsets"), lambda of: len(of["values"]) == len(of["offsets"]), "there are as many values as offsets"),
]


def disagreement(entity: Entity, parameters: list[Property], rows: tuple[ParameterRow, ...]) -> tuple[Property, str] | None:
    """The parameter at which a rule is broken, with the rule and the values in words."""
    given = {parameter.name: parameter for parameter in parameters}
    values = {row.name: default for row in rows if (default := _default(row)) is not None}
    for name, parameter in given.items():
        try:
            values[name] = evaluate(parse(parameter.text("value")), values_around(parameter, entity))
        except Fault:
            values.pop(name, None)
    for told, names, holds, words in _RULES:
        if not all(name in values and any(row.name == name for row in rows) for name in names):
            continue
        try:
            if holds(values):
                continue
        except TypeError:
            continue
        at = next((given[name] for name in (told, *names) if name in given), None)
        if at is not None:
            return at, f"{words}; here " + " and ".join(f"{name} is {_shown(values[name])}" for name in names)
    return None


def _default(row: ParameterRow) -> Token | None:
    found = re.search(r"Default (\S+?)\.?$", row.meaning)
    try:
        return evaluate(parse(found[1].replace(",", "")), {}) if found else None
    except Fault:
        return None


def _shown(value: Token) -> str:
    text = "{" + ", ".join(map(str, value)) + "}" if isinstance(value, list) else str(value)
    return text if len(text) <= 60 else text[:57] + "..."
