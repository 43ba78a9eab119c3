"""What each refusal means for its document: the place, what is wrong, and what would be right."""

from __future__ import annotations

from typing import Callable, Iterable

from . import loops
from .agreements import disagreement
from .document import Value
from .finding import Finding, Remark, listed, meant, quoted
from .library import classes, codes, director_parameters, directors
from .links import tell_link
from .model import DIRECTORS, Entity, Job, Node
from .scopes import Text, Wrong, first_value_fault, first_wrong, parameter_rows, texts_of
from .shape import name_faults, shape_faults
from .states import state_faults
from .wiring import Wiring

CLASSES_OF_COMPOSITES = ("Composite", "Modal")


def explain_refusal(job: Job, code: int, name: str, path: str) -> Finding:
    """The finding for a refused document that is JSON."""
    row = codes().get(code)
    finding = Finding(f"refused {code} {name} {path}", row.meaning if row else "")
    teller = _TELLERS.get(code)
    if teller:
        teller(job, path, finding)
    if finding.span is None:
        entity, _ = job.innermost("." if path == "?" else path)
        finding.points_to(entity.at("name"))
        finding.marks = finding.marks or [entity.path]
    return finding


def _entity(job: Job, path: str, finding: Finding) -> Entity:
    """The entity that a path names, marked."""
    entity = job.entity(path) or job.innermost(path)[0]
    finding.marks = [entity.path]
    return entity


def _first(finding: Finding, remarks: Iterable[Remark]) -> None:
    remark = next(iter(remarks), None)
    if remark:
        finding.points_to(remark.value).says(remark.text)


def _wrong(finding: Finding, found: Wrong | None) -> bool:
    if found:
        finding.span = found.span
        finding.says(*found.remarks)
    return bool(found)


def _shape(job: Job, path: str, finding: Finding) -> None:
    entity = _entity(job, path, finding)
    repeated = [other for other in entity.parent.entities if other.name == entity.name] if entity.parent else [entity]
    _first(finding, (remark for other in repeated for remark in shape_faults(job, other)))


def _name(job: Job, path: str, finding: Finding) -> None:
    _first(finding, name_faults(job, _entity(job, path, finding)))


def _class(job: Job, path: str, finding: Finding) -> None:
    entity = _entity(job, path, finding)
    known = [*classes(), *CLASSES_OF_COMPOSITES]
    if entity.kind not in known:
        finding.points_to(entity.at("class"))
        finding.says(f"There is no class {quoted(entity.kind)}. {meant(entity.kind, known)}")
        if entity.kind in (*DIRECTORS, "Variable"):
            finding.says(f"{entity.kind} is the class of a property: of the composite's director, or of a Variable in a Modal.")
        return
    allowed = [*directors()] if entity.is_composite else ["Variable"] if entity.is_modal else []
    parts = [*entity.properties, *(inner for part in entity.properties for inner in part.parameters)]
    parts += [inner for port in entity.ports for inner in port.nodes("properties")]
    for part in parts:
        kind = part.text("class")
        if "class" in part and (kind not in allowed or part not in entity.properties):
            finding.points_to(part.at("class"))
            finding.says(f"A property in {_called(entity)} has no class {quoted(kind)}. {meant(kind, allowed)}")
            finding.says(f"Classes of properties there: {listed(allowed)}.")
            return


def _called(entity: Entity) -> str:
    return "the top" if entity.parent is None else quoted(entity.path)


def _parameter(job: Job, path: str, finding: Finding) -> None:
    entity, name = job.owner(path)
    finding.marks = [entity.path]
    rows = parameter_rows(entity)
    holders = [(entity, rows)]
    if entity.director:
        holders.append((entity.director, director_parameters(entity.director.text("class"))))
    holders += [(port, ()) for port in entity.ports]
    for holder, known in holders:
        for part in holder.nodes("properties"):
            if part.name == name and not (holder is entity and not rows and "value" in part and not classes().get(entity.kind)):
                return _faulty_parameter(entity, holder, part, known, finding)
    holder, known = next(((holder, known) for holder, known in holders if any(row.name == name for row in known)), (entity, rows))
    row = next((row for row in known if row.name == name), None)
    finding.points_to(holder.at("class"))
    finding.says(f"The parameter '{name}' is missing, and is required.", f"{name}: {row.meaning}" if row else "")


def _faulty_parameter(entity: Entity, holder: Node, part: Node, known: tuple, finding: Finding) -> None:
    finding.points_to(part.at("name"))
    names = [row.name for row in known]
    what = _called(entity) if holder is entity else f"the director of {_called(entity)}"
    if part.name in names or (not names and holder is entity and entity.kind in CLASSES_OF_COMPOSITES):
        finding.says(f"The parameter {quoted(part.name)} has no 'value'.")
    elif holder in entity.ports:
        _faulty_rate(entity, part, finding)
    else:
        kind = holder.text("class")
        finding.says(f"{kind}, the class of {what}, has no parameter {quoted(part.name)}. {meant(part.name, names)}")
        finding.says(f"Parameters of {kind}: {listed(names)}.")
    finding.says(*(f"  {row.name}: {row.meaning}" for row in known))


def _faulty_rate(entity: Entity, part: Node, finding: Finding) -> None:
    if part.name == "rate" and entity.director_name in ("PN", "Rendezvous"):
        finding.says("The rate has no 'value'.")
    elif part.name == "rate":
        finding.says("Ports have a rate in composites with the director PN or Rendezvous alone; other rates are computed.")
    else:
        finding.says(f"A port has no property {quoted(part.name)}: it may have 'rate', and notes whose names begin with an underscore.")


def _record(job: Job, path: str, finding: Finding) -> None:
    texts = [item for item in job.items("record")]
    same = [item for item in texts if (item.text() or "") == path or (path == "?" and not _is_path(item.text() or ""))]
    if not same:
        return
    known = recordable(job)
    finding.points_to(same[-1])
    text = same[-1].text() or ""
    if len(same) > 1 and text in known:
        finding.says("This output is recorded already.")
        finding.others.append((same[0], "recorded here first"))
        return
    entity, names = job.innermost(text)
    finding.marks = [entity.path]
    if len(names) == 1 and entity.port_names.get(names[0]) is False:
        finding.says(f"{quoted(text)} is an input, and outputs are recorded.")
    elif entity.is_transparent and names and names[0] in entity.port_names:
        finding.says(f"{_called(entity)} has no director: record an output of an actor within.")
    else:
        finding.says(f"There is no output {quoted(text)}. {meant(text, known)}")
    own = [name for name in known if name.startswith(f"{entity.path}.")] if entity.parent else known
    finding.says(f"Outputs of {_called(entity)}: {listed(own)}.")


def _is_path(text: str) -> bool:
    return all(part.isidentifier() and part.isascii() and len(part) <= 64 for part in text.split("."))


def recordable(job: Job) -> list[str]:
    """The outputs that a document may record."""
    return [
        port if entity.parent is None else f"{entity.path}.{port}"
        for entity in job.top.walk() if not entity.is_transparent
        for port, is_output in entity.port_names.items() if is_output
    ]


def _inputs(job: Job, path: str, finding: Finding) -> None:
    given = [given for given in job.nodes("inputs") if given.text("port") == path or (path == "?" and not _is_path(given.text("port")))]
    if not given:
        return
    wanted = [port.name for port in job.top.ports if not port.is_output]
    finding.points_to(given[-1].at("port"))
    if path not in wanted:
        finding.says(f"The top has no input {quoted(given[-1].text('port'))}. {meant(path, wanted)}")
        finding.says(f"Inputs of the top: {listed(wanted)}.")
    elif len(given) > 1:
        finding.says("This input is given already.")
        finding.others.append((given[0].value, "given here first"))
    else:
        _wrong_tokens(job.top.director_name, given[0], finding)


def _wrong_tokens(director: str, given: Node, finding: Finding) -> None:
    field = "events" if "events" in given else "tokens"
    if (field == "events") != (director == "DE"):
        right = "'events' with their tags" if director == "DE" else "'tokens' in their order"
        finding.points_to(given.key(field)).says(f"Under {director} an input has {right}, not '{field}'.")
        return
    for item in given.items("tokens"):
        if item.kind == "null" and director != "SR":
            finding.points_to(item).says(f"null, for an absent token, stands under SR alone; here the director is {director}.")
            return
    last = (-1, -1)
    for item in given.nodes("events"):
        tag = int(item.at("time").raw()), int(item.at("step").raw())
        if tag <= last or tag[0] > 2**62 or tag[1] > 2**31:
            reason = "Times are at most 2^62, and steps at most 2^31."
            if tag <= last:
                reason = "Tags ascend: each event is later than the one before."
            finding.points_to(item.value).says(f"The tag here is {tag[0]}.{tag[1]}. {reason}")
            return
        last = tag


def _two_sources(job: Job, path: str, finding: Finding) -> None:
    group = next((group for group in Wiring(job).groups if path in group.relations and len(group.sources) > 1), None)
    if group is None:
        return
    first, *further = group.sources
    finding.points_to(first.link)
    finding.says(f"These are sources of one relation: {listed(end.path for end in group.sources)}. A relation has one source at most.")
    finding.says("To join two streams use an actor with a multiport, as AddSubtract, or Merge under Rendezvous.")
    finding.others += [(end.link, f"the source {end.path}") for end in further]
    finding.marks = [end.entity.path for end in group.sources]


def _text_fault(code: int) -> Callable[[Job, str, Finding], None]:
    def tell(job: Job, path: str, finding: Finding) -> None:
        entity = _entity(job, path, finding)
        if not _wrong(finding, first_wrong(texts_of(entity), code)):
            _token_fault(job, path, code, finding)

    return tell


def _token_fault(job: Job, path: str, code: int, finding: Finding) -> None:
    """A fault of the same kind in the tokens of an input of the top."""
    for given in job.nodes("inputs"):
        values = [*given.items("tokens"), *(event.at("value") for event in given.nodes("events"))]
        if given.text("port") == path:
            _wrong(finding, first_wrong(iter([Text(value, "a token of this input", ()) for value in values]), code))


def _value(job: Job, path: str, finding: Finding) -> None:
    entity = _entity(job, path, finding)
    rows = parameter_rows(entity) + (director_parameters(entity.director_name) if entity.director else ())
    parameters = entity.properties + (entity.director.parameters if entity.director else [])
    if job.entity(path) is None:
        _token_fault(job, path, 29, finding)
    elif _wrong(finding, first_value_fault(entity)):
        pass
    elif found := disagreement(entity, parameters, rows):
        finding.points_to(found[0].at("value")).says(f"{found[1]}.")
    elif rate := _wrong_rate(entity):
        finding.points_to(rate.at("value")).says("A rate is a whole number from 1 to 1,000,000.")
    if not finding.remarks:
        finding.says("A value faults, is of another kind or out of its range, or comes to a token above the size of 65,536.")
    finding.says(*(f"  {row.name}: {row.meaning}" for row in rows))


def _wrong_rate(entity: Entity) -> Node | None:
    """The first rate of a port that is none."""
    for port in entity.ports:
        for rate in port.nodes("properties"):
            text = rate.text("value").strip()
            if rate.name == "rate" and not (text.isdecimal() and 1 <= int(text[:20]) <= 1_000_000):
                return rate
    return None


def _type(job: Job, path: str, finding: Finding) -> None:
    entity = _entity(job, path, finding)
    row = classes().get(entity.kind)
    if row:
        declared = [f"{row.declared}"] if row.declared else []
        finding.says(f"Ports of {entity.kind}: {listed([*map(str, row.ports), *declared])}.")
    finding.points_to(entity.at("name"))
    if _wrong(finding, first_value_fault(entity)):
        return
    for port in entity.ports:
        if "type" in port:
            finding.says(f"  {port.name} is declared as {port.text('type')}.")
            finding.others.append((port.at("type"), "a type that is declared"))
    wiring = Wiring(job)
    for group in wiring.groups:
        for place in group.places:
            if place.entity is entity and not place.own:
                for source in group.sources:
                    finding.says(f"  {place.port} gets what {_described(source.entity, source.port)} gives.")
                    finding.others.append((place.link, f"the link of {place.path}"))
    if not finding.remarks:
        finding.says("The types of its ports and expressions don't go together.")


def _described(entity: Entity, port: str) -> str:
    """An output in words: its path, its class, and its type where the class or the document says it."""
    row = classes().get(entity.kind)
    found = row.port(port) if row else None
    declared = next((inner.text("type") for inner in entity.ports if inner.name == port), "")
    kind = declared or (found.type if found else "")
    value = next((inner.text("value") for inner in entity.parameters if inner.name in ("value", "values", "expression")), "")
    path = port if entity.parent is None else f"{entity.path}.{port}"
    shown = f", {quoted(value)}" if value else ""
    return f"{path} ({entity.kind}{shown}{', ' + kind if kind and kind != 'T' else ''})"


def _place(job: Job, path: str, finding: Finding) -> None:
    entity = _entity(job, path, finding)
    finding.points_to(entity.at("class"))
    above = entity.above.director_name if entity.above else ""
    row = classes().get(entity.kind)
    if entity.parent is None:
        wrong = f"Here it is {entity.director_name}." if entity.director_name else "Here it has none."
        finding.says(f"The top is a Composite with one of the directors SDF, SR, DE, PN and Rendezvous. {wrong}")
    elif row and above not in row.directors:
        finding.says(f"{entity.kind} stands under {above}, and may stand under: {listed(row.directors)}.")
        finding.points_to(entity.at("class"))
        finding.others.append(((entity.above.director or entity.above).at("class"), "the director"))
    elif row:
        finding.says("A source that ends has no fixed rate: under SDF firingCountLimit is 0, and a Sequence has repeat true.")


def _timed(job: Job, path: str, finding: Finding) -> None:
    entity = _entity(job, path, finding)
    finding.points_to(entity.director.at("class") if entity.director else entity.at("class"))
    around = entity.above
    while around is not None:
        if around.director_name not in ("DE", "Modal"):
            finding.says(f"{_called(around)} has the director {around.director_name}: DE stands where every director above is DE or Modal.")
            finding.others.append(((around.director or around).at("class"), "the director above"))
            return
        around = around.above


def _states(job: Job, path: str, finding: Finding) -> None:
    entity = _entity(job, path, finding)
    _first(finding, state_faults(entity))
    finding.says(f"States of {_called(entity)}: {listed(state.name for state in entity.states)}.")


def _limit(job: Job, path: str, finding: Finding) -> None:
    entity = _entity(job, path, finding)
    if _wrong(finding, first_wrong(texts_of(entity), 28)):
        return
    too_many, told = first_too_many(job)
    if too_many:
        finding.points_to(too_many).says(told)
        finding.marks = []
        return
    finding.says("There are at most 100,000 channels and 10,000 recorded ports.")
    finding.says("In an iteration there are at most 1,000,000 firings in a composite, and as many tokens on a channel.")
    loops.tell_rates(entity, finding)


def first_too_many(job: Job) -> tuple[Value | None, str]:
    """The first entity that is nested too deep, or one too many. The entities are counted without being read."""
    counted, open_lists = 0, [iter([job.top.value])]
    while open_lists:
        value = next(open_lists[-1], None)
        if value is None:
            open_lists.pop()
            continue
        if len(open_lists) > 16:
            return value, "This entity is the 17th in one another, and 16 is the most."
        counted += 1
        if counted > 10_001:
            return value, "This is the first entity too many: a document has at most 10,000 below the top."
        within = value.get("entities")
        if within:
            open_lists.append(within.items())
    return None, ""


_TELLERS: dict[int, Callable[[Job, str, Finding], None]] = {
    11: _shape,
    12: _name,
    13: _class,
    14: _parameter,
    15: tell_link,
    16: _two_sources,
    17: _text_fault(17),
    18: _text_fault(18),
    19: _type,
    20: _place,
    21: lambda job, path, finding: loops.tell_rates(_entity(job, path, finding), finding),
    22: lambda job, path, finding: loops.tell_deadlock(Wiring(job), _entity(job, path, finding), finding),
    23: lambda job, path, finding: loops.tell_delays(Wiring(job), _entity(job, path, finding), finding),
    24: _timed,
    25: _states,
    26: _record,
    27: _inputs,
    28: _limit,
    29: _value,
}
