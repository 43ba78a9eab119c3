"""A document as the parts of a model: entities, ports, relations and the rest, each with its place.

Nothing here refuses: a part that is missing or of another kind counts as empty, so that a document that ptrun refuses
can be looked at too.
"""

from __future__ import annotations

import re
from functools import cached_property
from typing import Iterator

from .document import Document, Value
from .forms import FIELDS
from .grammar import members_but
from .library import classes

DIRECTORS = ("SDF", "SR", "DE", "PN", "Rendezvous", "Giotto")
NAME = re.compile(r"[A-Za-z_][A-Za-z0-9_]{0,63}")
RESERVED = ("true", "false", "abs", "max", "min")
# Members that no object of the format has are passed over.
_OTHERS = members_but(FIELDS.values())
_NAMES = frozenset(FIELDS.values())
_BYTES_OF_A_SMALL_OBJECT = 4000


class Node:
    """An object of the document with its fields of the format; of fields of one name the last counts."""

    def __init__(self, value: Value):
        self.value = value
        # The fields of a small object as Python's values, without places: most of a document is small objects.
        self.plain: dict | None = None
        if value.end - value.start <= _BYTES_OF_A_SMALL_OBJECT and value.kind == "object":
            self.plain = value.plain()

    @cached_property
    def _spans(self) -> dict[str, tuple[int, int, int, int]]:
        """Of each field where its name begins and ends, and its value."""
        document, found = self.value.document, {}
        for span in self.value.spans(_OTHERS):
            name = FIELDS.get(document.data[span[0] + 1:span[1] - 1]) or Value(document, span[0], span[1]).text()
            if name in _NAMES:
                found[name] = span
        return found

    def __contains__(self, field: str) -> bool:
        return field in (self._spans if self.plain is None else self.plain)

    @property
    def fields(self) -> list[str]:
        """The names of its fields."""
        return list(self._spans)

    def get(self, field: str) -> Value | None:
        """The field's value, or None."""
        if field not in self:
            return None
        span = self._spans[field]
        return Value(self.value.document, span[2], span[3])

    def key(self, field: str) -> Value:
        """Where the name of a field stands that is there."""
        span = self._spans[field]
        return Value(self.value.document, span[0], span[1])

    def text(self, field: str) -> str:
        """The field's text, or an empty one."""
        if self.plain is not None:
            found = self.plain.get(field)
            return found if isinstance(found, str) else ""
        found = self.get(field)
        return (found.text() or "") if found else ""

    def truth(self, field: str) -> bool:
        if self.plain is not None:
            return self.plain.get(field) is True
        found = self.get(field)
        return bool(found) and found.raw() == "true"

    def items(self, field: str) -> Iterator[Value]:
        found = self.get(field)
        return found.items() if found else iter(())

    def nodes(self, field: str) -> list[Node]:
        return [Node(item) for item in self.items(field)]

    def at(self, field: str) -> Value:
        """Where the field's value stands, or else the object itself."""
        return self.get(field) or self.value

    @property
    def name(self) -> str:
        return self.text("name")


class Property(Node):
    @property
    def is_note(self) -> bool:
        return self.name.startswith("_")

    @property
    def is_director(self) -> bool:
        return self.text("class") in DIRECTORS and not self.is_note

    @property
    def is_variable(self) -> bool:
        return self.text("class") == "Variable" and not self.is_note

    @cached_property
    def parameters(self) -> list[Property]:
        return [inner for inner in map(Property, self.items("properties")) if not inner.is_note]


class Port(Node):
    @property
    def is_output(self) -> bool:
        return self.truth("output")


class Entity(Node):
    """An actor, a composite or a modal model, with the path of its names from below the top."""

    def __init__(self, value: Value, parent: Entity | None = None):
        super().__init__(value)
        self.parent = parent
        above = "" if parent is None or parent.parent is None else parent.path + "."
        self.path = above + self.name if parent else "."

    @property
    def kind(self) -> str:
        """The text of its class."""
        return self.text("class")

    @property
    def is_composite(self) -> bool:
        return self.kind == "Composite"

    @property
    def is_modal(self) -> bool:
        return self.kind == "Modal"

    @property
    def is_transparent(self) -> bool:
        return self.is_composite and self.director is None and self.parent is not None

    @cached_property
    def properties(self) -> list[Property]:
        """Its properties, notes left out."""
        return [inner for inner in map(Property, self.items("properties")) if not inner.is_note]

    @property
    def director(self) -> Property | None:
        return next((inner for inner in self.properties if inner.is_director), None) if self.is_composite else None

    @property
    def director_name(self) -> str:
        """Its director, `Modal` for a modal model, or an empty text."""
        if self.is_modal:
            return "Modal"
        return self.director.text("class") if self.director else ""

    @property
    def parameters(self) -> list[Property]:
        return [inner for inner in self.properties if not inner.text("class")]

    @property
    def variables(self) -> list[Property]:
        return [inner for inner in self.properties if inner.is_variable]

    @cached_property
    def ports(self) -> list[Port]:
        """Its declared ports."""
        return [Port(item) for item in self.items("ports")]

    @cached_property
    def entities(self) -> list[Entity]:
        return [Entity(item, self) for item in self.items("entities")]

    @cached_property
    def children(self) -> dict[str, Entity]:
        """The child of each name; of several the first one."""
        return {child.name: child for child in reversed(self.entities)}

    @cached_property
    def relations(self) -> list[Node]:
        return self.nodes("relations")

    @cached_property
    def relation_names(self) -> dict[str, None]:
        """The names of its relations in their order."""
        return dict.fromkeys(relation.name for relation in self.relations)

    @cached_property
    def links(self) -> list[Node]:
        return self.nodes("links")

    @cached_property
    def states(self) -> list[Node]:
        return self.nodes("states")

    @cached_property
    def transitions(self) -> list[Node]:
        return self.nodes("transitions")

    @property
    def above(self) -> Entity | None:
        """The composite with a director, or the Modal, that it belongs to: transparent ones are passed over."""
        around = self.parent
        while around is not None and around.is_transparent:
            around = around.parent
        return around

    @cached_property
    def port_names(self) -> dict[str, bool]:
        """The names of its ports in their order, and whether each is an output."""
        row = classes().get(self.kind)
        names = {port.name: port.is_output for port in row.ports} if row else {}
        declared = {port.name: port.is_output for port in self.ports if port.name}
        return {**declared, **names}

    @cached_property
    def port_numbers(self) -> dict[str, int]:
        """The number of each of its ports, in their order."""
        return {name: number for number, name in enumerate(self.port_names)}

    def is_multiport(self, port: str) -> bool:
        row = classes().get(self.kind)
        found = row.port(port) if row else None
        return bool(found) and found.is_multiport

    def walk(self) -> Iterator[Entity]:
        """This entity and all within, in document order."""
        waiting = [self]
        while waiting:
            entity = waiting.pop()
            yield entity
            waiting.extend(reversed(entity.entities))

    def child_at(self, names: list[str]) -> Entity | None:
        """The entity at these names from here, or None."""
        entity: Entity | None = self
        for name in names:
            entity = entity.children.get(name) if entity else None
        return entity


class Job(Node):
    """The whole document."""

    def __init__(self, document: Document):
        super().__init__(document.root)
        self.document = document

    @cached_property
    def top(self) -> Entity:
        return Entity(self.at("model"))

    def entity(self, path: str) -> Entity | None:
        """The entity of this path, `.` being the top."""
        return self.top if path == "." else self.top.child_at(path.split("."))

    def owner(self, path: str) -> tuple[Entity, str]:
        """The entity and the part of it that a path names: `S.k.output` is the port `output` of `S.k`."""
        *names, last = path.split(".")
        return (self.top.child_at(names) or self.top), last

    def innermost(self, path: str) -> tuple[Entity, list[str]]:
        """The innermost entity on a path that is there, and the names that are left."""
        entity, names = self.top, [] if path == "." else path.split(".")
        while names and names[0] in entity.children:
            entity, names = entity.children[names[0]], names[1:]
        return entity, names
