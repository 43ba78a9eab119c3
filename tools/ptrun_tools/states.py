"""What doesn't agree in the states, transitions and refinements of a Modal (code 25)."""

from __future__ import annotations

from typing import Iterator

from .finding import Remark, listed, meant, quoted
from .model import Entity


def state_faults(modal: Entity) -> Iterator[Remark]:
    """Each disagreement, in the order of the document's fields."""
    states = [state.name for state in modal.states]
    if not states:
        yield Remark(modal.at("states"), "A Modal has one state at least.")
    if modal.text("initial") not in states:
        yield Remark(modal.at("initial"), f"There is no state {quoted(modal.text('initial'))}. {meant(modal.text('initial'), states)}")
    yield from _refinement_faults(modal)
    outputs = [port.name for port in modal.ports if port.is_output]
    variables = [variable.name for variable in modal.variables]
    for transition in modal.transitions:
        for end in ("from", "to"):
            if transition.text(end) not in states:
                yield Remark(transition.at(end), f"There is no state {quoted(transition.text(end))}. {meant(transition.text(end), states)}")
        for action in transition.nodes("output"):
            if action.text("port") not in outputs:
                yield Remark(action.at("port"), f"{quoted(action.text('port'))} is no output of the Modal. Its outputs: {listed(outputs)}.")
        for action in transition.nodes("set"):
            if action.name not in variables:
                yield Remark(action.at("name"), f"{quoted(action.name)} is no Variable of the Modal. Its Variables: {listed(variables)}.")


def _refinement_faults(modal: Entity) -> Iterator[Remark]:
    taken: dict[str, str] = {}
    for state in modal.states:
        name = state.text("refinement")
        if "refinement" not in state:
            continue
        if name not in modal.children:
            yield Remark(state.at("refinement"), f"There is no child {quoted(name)}. {meant(name, modal.children)}")
        elif name in taken:
            yield Remark(state.at("refinement"), f"{quoted(name)} is the refinement of the state {quoted(taken[name])} already.")
        taken.setdefault(name, state.name)
    ports = {port.name: port.is_output for port in modal.ports}
    for child in modal.entities:
        if child.name not in taken:
            yield Remark(child.at("name"), f"No state has {quoted(child.name)} as its refinement.")
        if not child.director_name:
            yield Remark(child.at("class"), "A refinement is a Composite with a director, or a Modal.")
        for port in child.ports:
            if ports.get(port.name) is not port.is_output:
                way = "output" if port.is_output else "input"
                rule = "a refinement's ports bear names and directions of the Modal's"
                yield Remark(port.at("name"), f"The Modal has no {way} {quoted(port.name)}: {rule}.")
