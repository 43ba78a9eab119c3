"""The expressions of a model with what they may name, and which of them is at fault (codes 17, 18, 28 and 29)."""

from __future__ import annotations

import re
from typing import Iterator, NamedTuple

from .document import Value
from .expression import Fault, Token, depth_fault, evaluate, names_of, parse
from .finding import listed, meant, quoted
from .library import ParameterRow, classes, director_parameters
from .model import Entity, Property

# Parameters whose text is taken as it is written.
RAW = ("comparison", "function")


class Text(NamedTuple):
    """A text of the language: where it stands, what it is, and the names that it may use."""

    value: Value
    what: str
    names: tuple[str, ...]


def names_around(entity: Entity | None) -> list[str]:
    """The parameters of this composite and of those around it, the nearest first."""
    names = []
    while entity is not None:
        names += [parameter.name for parameter in entity.parameters]
        entity = entity.parent
    return names


def texts_of(entity: Entity) -> Iterator[Text]:
    """The expressions that an entity carries, in their order."""
    around = names_around(entity.parent)
    if entity.is_composite or entity.is_modal:
        yield from _texts_of_composite(entity, around)
    else:
        for parameter in entity.parameters:
            names = list(around)
            if parameter.name == "expression":
                inputs = [port.name for port in entity.ports if not port.is_output]
                names = inputs + [f"{name}_isPresent" for name in inputs] + around
            if parameter.name not in RAW and "value" in parameter:
                yield Text(parameter.at("value"), f"the parameter {quoted(parameter.name)}", tuple(names))
    if entity.is_modal:
        yield from _texts_of_modal(entity, around)


def _texts_of_composite(entity: Entity, around: list[str]) -> Iterator[Text]:
    before: list[str] = []
    for parameter in entity.parameters:
        if "value" in parameter:
            yield Text(parameter.at("value"), f"the parameter {quoted(parameter.name)}", tuple(before + around))
        before.append(parameter.name)
    for variable in entity.variables:
        yield Text(variable.at("value"), f"the Variable {quoted(variable.name)}", tuple(names_around(entity)))
    for parameter in entity.director.parameters if entity.director else []:
        if "value" in parameter:
            yield Text(parameter.at("value"), f"the director's parameter {quoted(parameter.name)}", tuple(names_around(entity)))
    for port in entity.ports:
        for rate in port.nodes("properties"):
            if rate.name == "rate":
                yield Text(rate.at("value"), f"the rate of port {quoted(port.name)}", ())


def _texts_of_modal(entity: Entity, around: list[str]) -> Iterator[Text]:
    ports = [port.name for port in entity.ports]
    names = ports + [f"{name}_isPresent" for name in ports] + [variable.name for variable in entity.variables]
    seen = tuple(names + names_around(entity))
    for transition in entity.transitions:
        way = f"the transition from {quoted(transition.text('from'))} to {quoted(transition.text('to'))}"
        yield Text(transition.at("guard"), f"the guard of {way}", seen)
        for action in transition.nodes("output"):
            yield Text(action.at("value"), f"the output action on {quoted(action.text('port'))} of {way}", seen)
        for action in transition.nodes("set"):
            yield Text(action.at("value"), f"the set action on {quoted(action.name)} of {way}", seen)


class Wrong(NamedTuple):
    """A fault of an expression: from which byte to which, and sentences on it."""

    span: tuple[int, int]
    remarks: tuple[str, ...]


def first_wrong(texts: Iterator[Text], code: int) -> Wrong | None:
    """The first text that breaks what this code stands for: the grammar, the names in scope, or the limits."""
    for text in texts:
        said = text.value.text()
        if said is None:
            continue
        try:
            found = depth_fault(said) if code == 28 else _grammar_or_names(said, text, code)
        except Fault as fault:
            found = fault if code == 17 else None
        if found:
            start = character_at(text.value, found.offset)
            return Wrong((start, max(start + 1, character_at(text.value, found.offset + 1))), (
                f"In {text.what}, {quoted(said)}: {found.reason}.",
                *([f"In scope are: {listed(text.names, 20)}."] if code == 18 else []),
            ))
    return None


def _grammar_or_names(said: str, text: Text, code: int) -> Fault | None:
    tree = parse(said)
    if code == 29:
        try:
            evaluate(tree, {})
        except Fault as fault:
            return fault
    if code != 18:
        return None
    for name, offset in names_of(tree):
        if name not in text.names:
            return Fault(offset, f"nothing of the name {quoted(name)} is in scope. {meant(name, text.names)}".rstrip(". "))
    return None


_UNIT = re.compile(rb"\\u[dD][89abAB][0-9a-fA-F]{2}\\u[0-9a-fA-F]{4}|\\u[0-9a-fA-F]{4}|\\.|[\x00-\x7f]|[\xc0-\xff][\x80-\xbf]*", re.DOTALL)


def character_at(value: Value, number: int) -> int:
    """The byte at which this character of a text value stands in the document, escapes counted as they are written."""
    data, position = value.document.data, value.start + 1
    for _ in range(number):
        if position >= value.end - 1:
            break
        position = _UNIT.match(data, position).end()
    return position


def parameter_rows(entity: Entity) -> tuple[ParameterRow, ...]:
    row = classes().get(entity.kind)
    return row.parameters if row else ()


def first_value_fault(entity: Entity) -> Wrong | None:
    """The first parameter whose value faults or is out of its range, as far as these tools can tell."""
    director = entity.director
    lists = [(entity.properties, parameter_rows(entity))]
    if director:
        lists.append((director.parameters, director_parameters(director.text("class"))))
    known = {row.name: row for _, rows in lists for row in rows}
    for parameters, _ in lists:
        for parameter in parameters:
            if parameter.name == "expression" or (parameter.is_director):
                continue
            found = _value_fault(parameter, known.get(parameter.name), values_around(parameter, entity))
            if found:
                return found
    return None


def _value_fault(parameter: Property, row: ParameterRow | None, scope: dict[str, Token]) -> Wrong | None:
    said = parameter.text("value")
    place = parameter.at("value")
    if row and row.words:
        if said not in row.words:
            return Wrong((place.start, place.end), (f"{quoted(said)} isn't one of {listed(row.words)}. {meant(said, row.words)}",))
        return None
    try:
        value = evaluate(parse(said), scope)
    except Fault as fault:
        start = character_at(place, fault.offset)
        return Wrong((start, start + 1), (f"In the parameter {quoted(parameter.name)}, {quoted(said)}: {fault.reason}.",))
    reason = out_of_range(value, row.meaning if row else "", scope)
    if reason:
        return Wrong((place.start, place.end), (f"The parameter {quoted(parameter.name)} is {_shown(value)}, and {reason}.",))
    return None


def values_around(parameter: Property, entity: Entity) -> dict[str, Token]:
    """What the names in scope of a parameter come to, those left out that have faults of their own."""
    chain, around = [], entity
    while around is not None:
        chain.append(around)
        around = around.parent
    scope: dict[str, Token] = {}
    for composite in reversed(chain):
        if not (composite.is_composite or composite.is_modal):
            continue
        for other in composite.parameters:
            if composite is entity and other.value.start == parameter.value.start:
                break
            try:
                scope[other.name] = evaluate(parse(other.text("value")), scope)
            except Fault:
                scope.pop(other.name, None)
    return scope


def _shown(value: Token) -> str:
    return str(value).lower() if isinstance(value, bool) else quoted(value) if isinstance(value, str) else str(value)[:60]


_RANGE = re.compile(r"(\d[\d,]*) to (2\^62|\d[\d,]*)")


def out_of_range(value: Token, meaning: str, scope: dict[str, Token]) -> str:
    """Why a value doesn't fit what is said of its parameter, or an empty text."""
    is_number = isinstance(value, int) and not isinstance(value, bool)
    ranged = _RANGE.search(meaning)
    if (" Int." in meaning or ranged) and "Array" not in meaning and not is_number:
        return "a whole number is wanted"
    if "Boolean." in meaning and not isinstance(value, bool):
        return "true or false is wanted"
    if "Array" in meaning and not isinstance(value, list):
        return "an array is wanted, as {1, 2}"
    if "Array with an element" in meaning and value == []:
        return "an array with one element at least is wanted"
    if ranged and is_number:
        least = int(ranged[1].replace(",", ""))
        greatest = 2**62 if ranged[2] == "2^62" else int(ranged[2].replace(",", ""))
        if not least <= value <= greatest:
            return f"its range is {ranged[0]}"
    return ""
