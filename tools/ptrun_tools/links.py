"""Which rule of links is broken (code 15)."""

from __future__ import annotations

from .finding import Finding, listed, meant, quoted
from .library import classes
from .model import Entity, Job, Node
from .wiring import Group, Wiring, port_of_link, relation_path


def tell_link(job: Job, path: str, finding: Finding) -> None:
    """Looks for a link of this path, then for a port or an actor that lacks one."""
    links = [(entity, link) for entity in job.top.walk() for link in entity.links if _path(entity, link) == path]
    for entity, link in links:
        if _names_nothing(entity, link, finding):
            finding.marks = [entity.path]
            return
    if path == "?":
        for entity in job.top.walk():
            for link in entity.links:
                if _names_nothing(entity, link, finding):
                    finding.marks = [entity.path]
                    return
    exact = job.entity(path)
    owner, port = job.owner(path)
    finding.marks = [(exact or owner).path]
    if exact is not None and port not in owner.port_names:
        _too_few_channels(exact, finding)
    elif len(links) > 1 and not owner.is_multiport(port) and _linked_twice(links, finding):
        return
    else:
        _without_source(Wiring(job), owner, port, path, finding)


def _path(entity: Entity, link: Node) -> str:
    return relation_path(entity, link.text("port") or link.text("relation1"))


def _names_nothing(entity: Entity, link: Node, finding: Finding) -> bool:
    """Whether a link names a port or a relation that isn't there."""
    relations = entity.relation_names
    for field in ("relation", "relation1", "relation2"):
        name = link.text(field)
        if field in link and name not in relations:
            finding.points_to(link.at(field)).says(f"There is no relation {quoted(name)} here. {meant(name, relations)}")
            finding.says(f"Relations: {listed(relations)}.")
            return True
    text = link.text("port")
    if "port" not in link or port_of_link(entity, text) is not None:
        return False
    finding.points_to(link.at("port"))
    child, dot, port = text.rpartition(".")
    owner = entity.children.get(child) if dot else entity
    if owner is None:
        finding.says(f"There is no child {quoted(child)} here. {meant(child, entity.children)}", f"Children: {listed(entity.children)}.")
        finding.says("A link names a port of its own composite, or one of a direct child." if "." in child else "")
        return True
    called = f"{quoted(owner.path)}, of class {owner.kind}," if owner.parent else "The top"
    finding.says(f"{called} has no port {quoted(port)}. {meant(port, owner.port_names)}")
    if not dot and text in entity.children:
        finding.says("A link names a port of a child, as " + listed(f"{text}.{name}" for name in entity.children[text].port_names) + ".")
    row = classes().get(owner.kind)
    shown = [str(found) for found in row.ports] if row else []
    shown += [inner.name for inner in owner.ports]
    finding.says(f"Ports: {listed(shown)}.")
    return True


def _linked_twice(links: list[tuple[Entity, Node]], finding: Finding) -> bool:
    first, *further = [link for _, link in links]
    finding.points_to(further[0].at("port"))
    finding.says("This port has a link already, and it is a single port: multiports alone take several.")
    finding.others.append((first.at("port"), "the first link"))
    return True


def _too_few_channels(entity: Entity, finding: Finding) -> None:
    finding.points_to(entity.at("name"))
    row = classes().get(entity.kind)
    inputs = [str(port) for port in row.ports if not port.is_output] if row else []
    finding.says(f"{quoted(entity.path)}, of class {entity.kind}, has too few channels: link {listed(inputs)}.")
    finding.says(row.meaning if row else "")


def _without_source(wiring: Wiring, owner: Entity, port: str, path: str, finding: Finding) -> None:
    ends = [(end, group) for group in wiring.groups for end in group.ends if end.path == path]
    inner = next(((end, group) for end, group in ends if end.own), None)
    outer = next(((end, group) for end, group in ends if not end.own), None)
    is_output = owner.port_names.get(port, False)
    place = inner if is_output and owner.kind == "Composite" else outer
    if inner and any(end.own for end in inner[1].places) and any(end.own for end in inner[1].sources):
        finding.points_to(inner[0].link)
        finding.says("An own input leads straight to an own output: put an actor between them, as a Scale of factor 1.")
    elif place and not place[1].sources:
        finding.points_to(place[0].link)
        finding.says(f"No output is linked to {_relations(place[1])}: the port gets no token.")
    elif owner.is_composite and inner is None:
        finding.points_to(_port_value(owner, port))
        finding.says(f"The port {quoted(port)} has no link inside {'the top' if owner.parent is None else quoted(owner.path)}.")
    else:
        finding.points_to(_port_value(owner, port))
        finding.says(f"The port {quoted(port)} has no link: link it to a relation that has a source.")


def _relations(group: Group) -> str:
    return f"the relation {quoted(group.relations[0])}" if len(group.relations) == 1 else f"the relations {listed(group.relations)}"


def _port_value(owner: Entity, port: str):
    declared = next((inner for inner in owner.ports if inner.name == port), None)
    return declared.at("name") if declared else owner.at("name")
