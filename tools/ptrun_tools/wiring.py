"""What is joined to what: the groups of relations, through transparent composites."""

from __future__ import annotations

from dataclasses import dataclass, field
from functools import cached_property

from .document import Value
from .model import Entity, Job


@dataclass(frozen=True)
class End:
    """A port at the end of a group, seen from the side of the group, and where the link that joins it names it."""

    entity: Entity
    port: str
    index: int
    own: bool
    link: Value

    @property
    def path(self) -> str:
        return self.port if self.entity.parent is None else f"{self.entity.path}.{self.port}"

    @property
    def is_source(self) -> bool:
        """An output of a child, or an own input seen from inside."""
        return self.entity.port_names.get(self.port, False) != self.own


@dataclass
class Group:
    """Relations that are joined, with the ports linked to them."""

    ends: list[End] = field(default_factory=list)
    relations: list[str] = field(default_factory=list)

    @property
    def sources(self) -> list[End]:
        return [end for end in self.ends if end.is_source]

    @property
    def places(self) -> list[End]:
        return [end for end in self.ends if not end.is_source]


class _Sets:
    """Disjoint sets of keys."""

    def __init__(self) -> None:
        self.above: dict = {}

    def of(self, key):
        root = key
        while self.above.setdefault(root, root) != root:
            root = self.above[root]
        while self.above[key] != root:
            self.above[key], key = root, self.above[key]
        return root

    def join(self, one, other) -> None:
        self.above[self.of(one)] = self.of(other)


class Wiring:
    """The groups of a whole model."""

    def __init__(self, job: Job):
        self.job = job

    @cached_property
    def groups(self) -> list[Group]:
        sets, ends, names = _Sets(), [], {}
        for entity in self.job.top.walk():
            if entity.is_composite:
                self._joined(entity, sets, ends, names)
        groups: dict = {}
        for key, path in names.items():
            groups.setdefault(sets.of(key), Group()).relations.append(path)
        for key, end in ends:
            groups.setdefault(sets.of(key), Group()).ends.append(end)
        return list(groups.values())

    def _joined(self, entity: Entity, sets: _Sets, ends: list, names: dict) -> None:
        """Adds the links of one composite."""
        counts: dict[str, int] = {}
        for relation in entity.relations:
            names[(entity.path, relation.name)] = relation_path(entity, relation.name)
        for link in entity.links:
            key = (entity.path, link.text("relation") or link.text("relation1"))
            if "relation2" in link:
                sets.join(key, (entity.path, link.text("relation2")))
                continue
            target = port_of_link(entity, link.text("port"))
            if target is None:
                continue
            owner, port = target
            index = counts.get(link.text("port"), 0)
            counts[link.text("port")] = index + 1
            if owner.is_transparent:
                sets.join(key, ("port", owner.path, port))
            else:
                ends.append((key, End(owner, port, index, owner is entity, link.at("port"))))

    @cached_property
    def _by_place(self) -> dict[tuple[str, int], tuple[End, Group]]:
        return {
            (end.path, end.index): (end, group)
            for group in self.groups for end in group.places if not end.own
        }

    @cached_property
    def _by_own_output(self) -> dict[str, Group]:
        return {end.path: group for group in self.groups for end in group.places if end.own}

    def place(self, path: str, index: int) -> tuple[End, Group] | None:
        """The channel of this index at an input of a child, by the input's path."""
        return self._by_place.get((path, index))

    def sender(self, path: str, index: int) -> End | None:
        """The source of that channel."""
        found = self.place(path, index)
        return found[1].sources[0] if found and found[1].sources else None

    def sender_of_output(self, path: str) -> End | None:
        """The source of an own output of a composite."""
        group = self._by_own_output.get(path)
        return group.sources[0] if group and group.sources else None

    def flow(self, composite: Entity) -> dict[str, list[tuple[str, End, End]]]:
        """For each child of a composite with a director: the children that it gives to, with both ends."""
        found: dict[str, list[tuple[str, End, End]]] = {}
        for group in self.groups:
            for source in group.sources:
                for place in group.places:
                    if not (source.own or place.own) and source.entity.above is composite:
                        found.setdefault(source.entity.path, []).append((place.entity.path, source, place))
        return found


def relation_path(entity: Entity, relation: str) -> str:
    return relation if entity.parent is None else f"{entity.path}.{relation}"


def port_of_link(entity: Entity, text: str) -> tuple[Entity, str] | None:
    """The entity and the port that a link in this composite names, or None where they aren't there."""
    child, dot, port = text.rpartition(".")
    owner = entity.children.get(child) if dot else entity
    return (owner, port) if owner is not None and port in owner.port_names else None
