"""A model as a drawing, in the language of Graphviz: boxes in one another, ports, relations and charts."""

from __future__ import annotations

import hashlib
from dataclasses import dataclass, field
from typing import Iterable

from .dot import LINE_END, Markup, attribute, attributes, font, text_of_label
from .finding import quoted
from .model import Entity, Job, Node
from .wiring import port_of_link

# A drawing with more boxes than this is of no use, and takes Graphviz minutes.
DEFAULT_LIMIT = 300
_MOST_PORTS = 20
_MOST_TEXTS = 8

_MARK = "#c62828"
_FRAME, _BOX = "#37474f", "#fafafa"
_LINE = "#455a64"
_PORT, _PORT_FRAME = "#eceff1", "#78909c"
_STATE, _CHART = "#e0f2f1", "#00695c"
_OPAQUE, _TRANSPARENT = "#1565c0", "#90a4ae"
_OUTPUT_ACTION, _SET_ACTION = "#1565c0", "#6a1b9a"

_GRAPH = {"rankdir": "LR", "compound": "true", "fontsize": 12, "nodesep": 0.3, "ranksep": 0.5, "bgcolor": "#ffffff", "pad": 0.2}
_FONT = {"fontname": "Helvetica,Arial,sans-serif"}


@dataclass
class Drawing:
    """The DOT text, and what was left out of it."""

    dot: str
    notes: list[str] = field(default_factory=list)

    @property
    def digest(self) -> str:
        return hashlib.sha256(self.dot.encode("utf-8")).hexdigest()


def draw(job: Job, depth: int | None = None, limit: int = DEFAULT_LIMIT, marks: Iterable[str] = ()) -> Drawing:
    """The drawing of a document, with composites open to a depth and no more boxes than the limit.

    The entities whose paths are in `marks` are drawn in red.
    """
    return _Artist(job, depth, limit, set(marks)).drawing()


@dataclass(frozen=True)
class _End:
    """The end of a link: a place in the drawing, and whether it gives to the relation."""

    place: str
    is_source: bool


class _Artist:
    def __init__(self, job: Job, depth: int | None, limit: int, marks: set[str]):
        self.top = job.top
        self.limit = limit
        self.marks = marks
        self.lines: list[str] = []
        self.notes: list[str] = []
        self.names: dict[int, str] = {}
        self.drawn: dict[int, set[int]] = {}
        self.recorded = {item.text() or "" for item in job.items("record")}
        self.open = self.opened(depth)

    def opened(self, depth: int | None) -> set[int]:
        """Which composites are drawn open: level by level, as long as all their parts fit."""
        found, level, count, closed, number = set(), [self.top], 1, 0, 0
        while level:
            below: list[Entity] = []
            for entity in level:
                size = len(entity.entities) + len(entity.states)
                if not size:
                    continue
                if (depth is None or number <= depth) and (count + size <= self.limit or entity is self.top):
                    found.add(id(entity))
                    count += min(size, self.limit)
                    below += entity.entities[: self.limit]
                else:
                    closed += 1
            level, number = below, number + 1
        if closed:
            self.notes.append(f"{closed:,} composite{'s are' if closed > 1 else ' is'} drawn closed")
        return found

    def drawing(self) -> Drawing:
        self.write(0, "digraph model {")
        self.write(1, f"graph {attributes({**_GRAPH, **_FONT})};")
        self.write(1, f"node {attributes({'shape': 'plain', 'fontsize': 11, **_FONT})};")
        self.write(1, f"edge {attributes({'arrowsize': 0.7, 'fontsize': 10, **_FONT})};")
        self.entity(self.top, 1)
        self.write(0, "}")
        return Drawing("\n".join(self.lines) + "\n", self.notes)

    # ---- writing

    def write(self, indent: int, text: str) -> None:
        self.lines.append("  " * indent + text)

    def node(self, indent: int, name: str, **given: object) -> None:
        self.write(indent, f"{name} {attributes(given)};")

    def line(self, indent: int, source: str, target: str, **given: object) -> None:
        self.write(indent, f"{source} -> {target} {attributes(given)};")

    def name(self, entity: Entity) -> str:
        """The name of an entity in the drawing, free of whatever the document calls it."""
        return self.names.setdefault(id(entity), f"e{len(self.names)}")

    def port(self, entity: Entity, port: str) -> str:
        """The place of a composite's own port."""
        return f"{self.name(entity)}_{_port_name(entity, port)}"

    def is_marked(self, entity: Entity) -> bool:
        return entity.path in self.marks

    def kind(self, entity: Entity, kind: str) -> str:
        """The class of an element, for styles."""
        return f"{kind} marked" if self.is_marked(entity) else kind

    def port_text(self, entity: Entity, port: str) -> str:
        """The name of a port, underlined where it is recorded."""
        shown = text_of_label(port, 24)
        path = port if entity.parent is None else f"{entity.path}.{port}"
        return f"<U>{shown}</U>" if path in self.recorded else shown

    # ---- actors

    def entity(self, entity: Entity, indent: int) -> None:
        if id(entity) in self.open:
            self.composite(entity, indent)
        else:
            self.actor(entity, indent)

    def actor(self, entity: Entity, indent: int) -> None:
        """An actor, or a composite that stays closed, as a box with its ports at its sides."""
        middle = [f"<B>{text_of_label(entity.name)}</B>", f"<I>{text_of_label(_kind_text(entity))}</I>"]
        middle += [text_of_label(text) for text in parameter_texts(entity)]
        frame = f'COLOR="{_MARK}" BORDER="3"' if self.is_marked(entity) else f'COLOR="{_FRAME}" BORDER="1"'
        label = (
            f'<TABLE {frame} CELLBORDER="0" CELLSPACING="0" CELLPADDING="2" BGCOLOR="{_BOX}" STYLE="ROUNDED"><TR>'
            f'<TD>{self.port_cells(entity, False)}</TD><TD BALIGN="CENTER">{"<BR/>".join(middle)}</TD>'
            f"<TD>{self.port_cells(entity, True)}</TD></TR></TABLE>"
        )
        name = self.name(entity)
        self.node(indent, name, id=name, class_=self.kind(entity, "actor"), tooltip=_tooltip(entity), label=Markup(label))

    def port_cells(self, entity: Entity, is_output: bool) -> str:
        names = [name for name, output in entity.port_names.items() if output == is_output][:_MOST_PORTS]
        align = "RIGHT" if is_output else "LEFT"
        rows = [
            f'<TR><TD PORT="{_port_name(entity, name)}" ALIGN="{align}">'
            f'<FONT POINT-SIZE="9" COLOR="{_LINE}">{self.port_text(entity, name)}</FONT></TD></TR>'
            for name in names
        ]
        return f'<TABLE BORDER="0" CELLBORDER="0" CELLSPACING="0" CELLPADDING="1">{"".join(rows)}</TABLE>' if rows else ""

    # ---- composites

    def composite(self, entity: Entity, indent: int) -> None:
        """A composite as a frame around its parts: dashed where it is transparent, green where it is modal."""
        name = self.name(entity)
        is_opaque = entity.is_modal or entity.director is not None or entity.parent is None
        colour = _CHART if entity.is_modal else _OPAQUE if is_opaque else _TRANSPARENT
        given: dict[str, object] = {
            "id": name, "class": self.kind(entity, "composite"), "color": _MARK if self.is_marked(entity) else colour,
            "style": "rounded" if is_opaque else "rounded,dashed", "penwidth": 3 if self.is_marked(entity) else 1,
            "margin": 12, "labeljust": "l", "tooltip": _tooltip(entity),
            "label": Markup("".join(line + LINE_END for line in _title(entity))),
        }
        self.write(indent, f"subgraph cluster_{name} {{")
        self.write(indent + 1, " ".join(f"{key}={attribute(value)};" for key, value in given.items()))
        self.own_ports(entity, indent + 1)
        if entity.is_modal:
            self.chart(entity, indent + 1)
        self.children(entity, indent + 1)
        self.relations(entity, indent + 1)
        self.write(indent, "}")

    def children(self, entity: Entity, indent: int) -> None:
        """The children, as many as are drawn, and a box for the others."""
        shown = entity.entities[: self.limit]
        self.drawn[id(entity)] = {id(child) for child in shown}
        for child in shown:
            self.entity(child, indent)
        left = len(entity.entities) - len(shown)
        if left:
            self.notes.append(f"{left:,} of the {len(entity.entities):,} entities in {quoted(entity.name)} aren't drawn")
            self.node(indent, self.more(entity), class_="actor", shape="box", style="dashed,rounded", label=f"and {left:,} more")

    def more(self, entity: Entity) -> str:
        """The box for the children that aren't drawn."""
        return f"{self.name(entity)}_more"

    def own_ports(self, entity: Entity, indent: int) -> None:
        for port in entity.ports[: self.limit]:
            kind = f"{port.name}: {port.text('type')}" if port.text("type") else port.name
            self.node(
                indent, self.port(entity, port.name), class_="port", shape="cds", style="filled", fillcolor=_PORT, color=_PORT_FRAME,
                fontsize=9, height=0.2, margin="0.08,0.02", tooltip=kind, label=Markup(self.port_text(entity, port.name)),
            )

    # ---- relations

    def relations(self, entity: Entity, indent: int) -> None:
        """Each relation as a diamond; one that joins an output and a place alone as a line."""
        ends: dict[str, list[_End]] = {}
        joined: list[tuple[str, str]] = []
        for link in entity.links:
            if "relation2" in link:
                joined.append((link.text("relation1"), link.text("relation2")))
            elif end := self.end(entity, link):
                ends.setdefault(link.text("relation"), []).append(end)
        joined = joined[: self.limit]
        several = {name for pair in joined for name in pair}
        places: dict[str, str] = {}
        for number, relation in enumerate(entity.relations):
            at = ends.get(relation.name, [])
            if all(end.place == self.more(entity) for end in at) and relation.name not in several:
                continue
            sources, others = [end for end in at if end.is_source], [end for end in at if not end.is_source]
            if relation.name not in several and len(sources) == len(others) == 1:
                tooltip = f"relation {relation.name}"
                self.line(indent, sources[0].place, others[0].place, class_="relation", color=_LINE, edgetooltip=tooltip)
            else:
                places[relation.name] = f"{self.name(entity)}_r{number}"
                self.diamond(places[relation.name], relation, at, indent)
        for one, other in joined:
            if one in places and other in places:
                self.line(indent, places[one], places[other], class_="relation", dir="none", color=_LINE)

    def diamond(self, place: str, relation: Node, at: list[_End], indent: int) -> None:
        tooltip = f"relation {relation.name}"
        self.node(
            indent, place, class_="relation", shape="diamond", style="filled", fillcolor=_LINE, color=_LINE, width=0.12, height=0.12,
            label="", tooltip=tooltip,
        )
        for end in list(dict.fromkeys(at))[: 2 * self.limit]:
            source, target, way = (end.place, place, "none") if end.is_source else (place, end.place, "forward")
            self.line(indent, source, target, class_="relation", color=_LINE, dir=way, edgetooltip=tooltip)

    def end(self, entity: Entity, link: Node) -> _End | None:
        """The end of a link in the drawing."""
        target = port_of_link(entity, link.text("port"))
        if target is None:
            return None
        owner, port = target
        is_output = owner.port_names[port]
        if owner is not entity and id(owner) not in self.drawn[id(entity)]:
            return _End(self.more(entity), is_output)
        if owner is entity or id(owner) in self.open:
            return _End(self.port(owner, port), is_output != (owner is entity))
        return _End(f"{self.name(owner)}:{_port_name(owner, port)}:{'e' if is_output else 'w'}", is_output)

    # ---- charts

    def chart(self, modal: Entity, indent: int) -> None:
        """The states and transitions of a Modal; below a state's name stands that of its refinement."""
        states = modal.states[: self.limit]
        places = {state.name: f"{self.name(modal)}_s{number}" for number, state in enumerate(states)}
        for state in states:
            below = "<BR/>" + font(state.text("refinement"), 9) if state.text("refinement") else ""
            self.node(
                indent, places[state.name], class_="state", shape="ellipse", style="filled", fillcolor=_STATE, color=_CHART,
                label=Markup(f"<B>{text_of_label(state.name)}</B>{below}"),
            )
        initial = places.get(modal.text("initial"))
        if initial:
            self.node(indent, f"{initial}_start", class_="state", shape="point", width=0.12, color=_CHART, tooltip="initial state")
            self.line(indent, f"{initial}_start", initial, class_="transition", color=_CHART)
        self.sides(modal, list(places.values()), indent)
        for transition in modal.transitions[: self.limit]:
            source, target = places.get(transition.text("from")), places.get(transition.text("to"))
            if source and target:
                self.transition(source, target, transition, indent)

    def sides(self, modal: Entity, states: list[str], indent: int) -> None:
        """Lines that aren't seen, which keep the inputs of a Modal at its left and the outputs at its right."""
        for port in modal.ports[:_MOST_PORTS]:
            place = self.port(modal, port.name)
            for state in states[:_MOST_PORTS]:
                source, target = (state, place) if port.is_output else (place, state)
                self.line(indent, source, target, style="invis", weight=0)

    def transition(self, source: str, target: str, transition: Node, indent: int) -> None:
        """A line with its guard and actions: a hollow head begins the refinement anew, a red dot is preemptive."""
        is_preemptive = transition.truth("preemptive")
        rows = [text_of_label(transition.text("guard"))]
        for action in transition.nodes("output")[:_MOST_TEXTS]:
            rows.append(font(f"{action.text('port')} ! {action.text('value')}", colour=_OUTPUT_ACTION))
        for action in transition.nodes("set")[:_MOST_TEXTS]:
            rows.append(font(f"{action.name} := {action.text('value')}", colour=_SET_ACTION))
        self.line(
            indent, source, target, class_="transition", arrowhead="normal" if transition.truth("history") else "empty",
            arrowtail="dot" if is_preemptive else "none", dir="both", color=_MARK if is_preemptive else _CHART,
            label=Markup("<BR/>".join(rows)),
        )


def _port_name(entity: Entity, port: str) -> str:
    """The name of a port in the drawing: its number, free of whatever the document calls it."""
    return f"p{entity.port_numbers.get(port, 0)}"


def _kind_text(entity: Entity) -> str:
    """The class of an actor, or the director of a composite with what stays hidden."""
    if not (entity.is_composite or entity.is_modal):
        return entity.kind
    within = f", {len(entity.entities):,} within" if entity.entities else ""
    return (entity.director_name or "Composite") + within


def parameter_texts(entity: Entity) -> list[str]:
    """Parameters and Variables as a person would write them."""
    shown = [f"{parameter.name} = {parameter.text('value')}" for parameter in entity.parameters]
    shown += [f"{variable.name} := {variable.text('value')}" for variable in entity.variables]
    left = len(shown) - _MOST_TEXTS
    return shown[:_MOST_TEXTS] + ([f"and {left:,} more"] if left > 0 else [])


def _title(entity: Entity) -> list[str]:
    """The lines at the head of a composite: its name, its director, its parameters."""
    lines = [f"<B>{text_of_label(entity.name)}</B>"]
    if entity.director_name:
        parameters = entity.director.parameters if entity.director else []
        told = ", ".join(f"{parameter.name} = {parameter.text('value')}" for parameter in parameters)
        lines.append(f'<FONT POINT-SIZE="10"><I>{text_of_label(entity.director_name)}</I>&#160;&#160;</FONT>{font(told, 10, longest=60)}')
    return lines + [font(text, 10) for text in parameter_texts(entity)]


def _tooltip(entity: Entity) -> str:
    # Without what the class does, so that pictures stay up to date where its description changes.
    return f"{entity.path}: {entity.kind}"
