"""The forms of a document's objects and names: what breaks them within one entity (codes 11 and 12)."""

from __future__ import annotations

import re
from typing import Iterable, Iterator

from .document import Value
from .finding import Remark, listed, meant, quoted
from .forms import FORMS, REQUIRED
from .model import NAME, RESERVED, Entity, Job, Node

_KINDS = {"text": "a text in double quotes", "truth": "true or false", "list": "a list", "object": "an object", "number": "a whole number"}
# The Python type that a right field is read to. A number is looked at closely.
_TYPE_OF_KIND = {"text": str, "truth": bool, "list": list, "object": dict, "number": int}
_TYPES = {form: {name: _TYPE_OF_KIND[kind.rstrip("!")] for name, kind in fields.items()} for form, fields in FORMS.items()}
# Which fields of an entity stand in some classes alone.
_OF_COMPOSITES = ("relations", "links")
_OF_MODALS = ("states", "initial", "transitions")
_WITH_PORTS = ("Composite", "Modal", "Expression", "RecordAssembler", "RecordDisassembler")


def allowed_fields(kind: str) -> list[str]:
    """The fields that an entity of this class may have."""
    fields = ["name", "class", "properties"]
    fields += ["ports"] if kind in _WITH_PORTS else []
    fields += ["entities"] if kind in ("Composite", "Modal") else []
    fields += _OF_COMPOSITES if kind == "Composite" else []
    return fields + (list(_OF_MODALS) if kind == "Modal" else [])


def form_faults(node: Node, form: str) -> Iterator[Remark]:
    """What is wrong with one object's own fields."""
    if _is_right(node.plain, form):
        return
    fields, value = FORMS[form], node.value
    if value.kind != "object":
        yield Remark(value, f"An object is wanted here, the {form}.")
        return
    for member in value.members():
        if member.name not in fields:
            yield Remark(member.key, f"The field {quoted(member.name)} is unknown. {meant(member.name, fields)} Fields of this {form}: {listed(fields)}.")
    for name in node.fields:
        found = node.get(name)
        if name in fields and found.kind != fields[name].rstrip("!"):
            yield Remark(found, f"The field '{name}' of this {form} is {_KINDS[fields[name].rstrip('!')]}.")
    for name in REQUIRED[form]:
        if name not in node:
            yield Remark(value, f"This {form} lacks its field '{name}', which is {_KINDS[fields[name].rstrip('!')]}.")


def _is_right(plain: dict | None, form: str) -> bool:
    """Whether these are the fields of a right object, at a glance."""
    if plain is None:
        return False
    types = _TYPES[form]
    for name, value in plain.items():
        if types.get(name) is not type(value):
            return False
    return plain.keys() >= REQUIRED[form]


def _each(node: Node, field: str, form: str) -> Iterator[Remark]:
    for item in node.items(field):
        yield from form_faults(Node(item), form)


def shape_faults(job: Job, entity: Entity) -> Iterator[Remark]:
    """What breaks the form in this entity, and in the whole document where it is the top."""
    if entity.parent is None:
        yield from _document_faults(job)
    yield from _entity_faults(entity)
    yield from _property_faults(entity)
    yield from _port_faults(entity)
    yield from _each(entity, "relations", "relation")
    yield from _link_faults(entity)
    yield from _each(entity, "states", "state")
    for transition in map(Node, entity.items("transitions")):
        yield from form_faults(transition, "transition")
        yield from _each(transition, "output", "output action")
        yield from _each(transition, "set", "set action")
    for child in map(Node, entity.items("entities")):
        yield from (remark for remark in form_faults(child, "entity") if _is_of_parent(remark, child))


def _is_of_parent(remark: Remark, child: Node) -> bool:
    """Whether a fault of a child is reported at the entity around it: its name, or that it is no object."""
    return child.value.kind != "object" or "'name'" in remark.text


def _document_faults(job: Job) -> Iterator[Remark]:
    yield from form_faults(job, "document")
    version = job.get("version")
    if version is not None and version.raw() != "1":
        yield Remark(version, "The version is the whole number 1.")
    for item in job.items("record"):
        if item.kind != "text":
            yield Remark(item, "The record is a list of texts, the paths of output ports.")
    for given in map(Node, job.items("inputs")):
        yield from form_faults(given, "input")
        yield from _input_faults(given)


def _input_faults(given: Node) -> Iterator[Remark]:
    if ("tokens" in given) == ("events" in given):
        yield Remark(given.value, "An input has one of 'tokens' and 'events', and not both.")
    for item in given.items("tokens"):
        if item.kind not in ("text", "null"):
            yield Remark(item, "A token is a text of an expression, as \"1\", or null for none.")
    for event in map(Node, given.items("events")):
        yield from form_faults(event, "event")
        for field in ("time", "step"):
            number = event.get(field)
            if number is not None and not (re.fullmatch(r"[0-9]{1,20}", number.raw()) and int(number.raw()) < 2**64):
                yield Remark(number, f"The {field} of an event is a whole number from 0, of 64 bits at most.")


def _entity_faults(entity: Entity) -> Iterator[Remark]:
    if entity.parent is None:
        yield from form_faults(entity, "entity")
    else:
        yield from (remark for remark in form_faults(entity, "entity") if not _is_of_parent(remark, entity))
    allowed = allowed_fields(entity.kind)
    for name in FORMS["entity"]:
        if name in entity and name not in allowed and entity.kind:
            yield Remark(entity.key(name), f"An entity of class {quoted(entity.kind)} has no '{name}'. It may have: {listed(allowed)}.")
    if entity.is_modal:
        for name in ("states", "initial"):
            if name not in entity:
                yield Remark(entity.value, f"A Modal has the field '{name}'.")


def _property_faults(entity: Entity) -> Iterator[Remark]:
    waiting = [entity.items("properties")]
    while waiting:
        for inner in map(Node, waiting.pop()):
            yield from form_faults(inner, "property")
            if "properties" in inner:
                waiting.append(inner.items("properties"))
    directors = [inner for inner in entity.properties if inner.is_director]
    for second in directors[1:]:
        yield Remark(second.at("class"), f"A composite has one director, and this one has {quoted(directors[0].text('class'))} already.")


def _port_faults(entity: Entity) -> Iterator[Remark]:
    wrong = "input" if entity.kind == "RecordDisassembler" else "output"
    is_of_actor = entity.kind in _WITH_PORTS[2:]
    for port in map(Node, entity.items("ports")):
        yield from form_faults(port, "port")
        yield from _each(port, "properties", "property")
        if port.truth("input") == port.truth("output"):
            yield Remark(port.value, "Exactly one of 'input' and 'output' is true at a port.")
        if is_of_actor and port.truth(wrong):
            right = "outputs" if wrong == "input" else "inputs"
            yield Remark(port.at(wrong), f"{entity.kind} declares {right}; its {wrong} is there without being declared.")
        if "type" in port and type_end(port.text("type"), 0) != len(port.text("type")):
            yield Remark(port.at("type"), "A type is int, boolean, string, arrayType(T) or {a = T, b = T}, with single blanks as shown.")
    if entity.kind in ("RecordAssembler", "RecordDisassembler") and not entity.ports:
        yield Remark(entity.value, f"A {entity.kind} declares one port at least.")


def _link_faults(entity: Entity) -> Iterator[Remark]:
    for link in map(Node, entity.items("links")):
        yield from form_faults(link, "link")
        if {name for name in FORMS["link"] if name in link} not in _LINKS:
            yield Remark(link.value, "A link has 'port' and 'relation', or 'relation1' and 'relation2'.")


_LINKS = ({"port", "relation"}, {"relation1", "relation2"})
_ARRAYS = re.compile(r"(?:arrayType\()*")
_FIRST_FIELD = re.compile(r"\{([A-Za-z_]\w*) = ", re.ASCII)
_NEXT_FIELD = re.compile(r", ([A-Za-z_]\w*) = ", re.ASCII)
_SCALAR = re.compile("int|boolean|string")


def _is_field(name: str) -> bool:
    return name not in RESERVED and len(name) <= 64


def type_end(text: str, start: int) -> int:
    """Where the type ends that begins here, or -1. Types in one another are kept on a list, not by recursion."""
    position = start
    # What is open: None for an array, and for a record the names of its fields so far.
    opened: list[set[str] | None] = []
    while True:
        arrays = _ARRAYS.match(text, position)
        opened += [None] * (len(arrays[0]) // len("arrayType("))
        position = arrays.end()
        if field := _FIRST_FIELD.match(text, position):
            if not _is_field(field[1]):
                return -1
            opened.append({field[1]})
            position = field.end()
            continue
        scalar = _SCALAR.match(text, position)
        if not scalar:
            return -1
        position = scalar.end()
        while opened and text.startswith(")" if opened[-1] is None else "}", position):
            opened.pop()
            position += 1
        if not opened:
            return position
        following = _NEXT_FIELD.match(text, position)
        if not opened[-1] or not following or following[1] in opened[-1] or not _is_field(following[1]):
            return -1
        opened[-1].add(following[1])
        position = following.end()


def name_faults(job: Job, entity: Entity) -> Iterator[Remark]:
    """Which names in this entity aren't of the form, are reserved, or are repeated."""
    if entity.parent is None:
        yield from _names([entity], "entity")
    waiting: list[Node] = [entity]
    while waiting:
        inner = waiting.pop().nodes("properties")
        yield from _names(inner, "property")
        waiting += inner
    yield from _names(entity.ports, "port")
    for port in entity.ports:
        yield from _names(port.nodes("properties"), "property")
    yield from _names(entity.entities, "entity")
    yield from _names(entity.relations, "relation")
    yield from _names(entity.states, "state")
    yield from _reserved(entity)


def _names(nodes: Iterable[Node], what: str) -> Iterator[Remark]:
    seen: dict[str, Node] = {}
    for node in nodes:
        if "name" not in node:
            continue
        name = node.name
        if not NAME.fullmatch(name):
            yield Remark(node.at("name"), f"{quoted(name)} is no name: {_what_breaks(name)}")
        if name in seen:
            line = seen[name].value.place().line
            yield Remark(node.at("name"), f"The name {quoted(name)} stands twice: another {what} of this name is in line {line}.")
        seen[name] = node


def _what_breaks(name: str) -> str:
    if not name:
        return "it is empty."
    if len(name) > 64 and name.isascii():
        return f"it has {len(name):,} bytes, and 64 are the most."
    if name[0].isdigit():
        return "it begins with a digit."
    bad = next((sign for sign in name if not re.fullmatch("[A-Za-z0-9_]", sign)), "")
    shown = f"{bad!r} (U+{ord(bad):04X})" if bad else "a sign"
    return f"it has {shown}, and a name has letters from A to Z, digits and underscores alone."


def _reserved(entity: Entity) -> Iterator[Remark]:
    named = list(entity.ports)
    if entity.is_composite or entity.is_modal:
        named += entity.parameters + entity.variables
    for node in named:
        if node.name in RESERVED or node.name.endswith("_isPresent"):
            reason = f"{quoted(node.name)} belongs to the expression language, and names no port, parameter or Variable."
            yield Remark(node.at("name"), reason)
    there = {"Expression": "output", "RecordAssembler": "output", "RecordDisassembler": "input"}.get(entity.kind)
    for port in entity.ports:
        if port.name == there:
            yield Remark(port.at("name"), f"A {entity.kind} has its port '{there}' without being told.")
