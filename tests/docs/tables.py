"""Compares the tables of docs/FORMAT.md with those of the program and with the schema."""

import json
import re
from dataclasses import replace

from .sources import ClassRow, Parameter, Port, Sources, Texts, sources_of

FORMAT = "docs/FORMAT.md"
SCHEMA = "schema/ptrun.schema.json"
ALL = frozenset({"SDF", "PN", "Rendezvous", "SR", "DE"})


class BadTable(Exception):
    """A table of the document that can't be read."""


# ---- the document


def plain(text: str) -> str:
    """A cell without its marks and links."""
    return re.sub(r"\[([^\]]*)\]\([^)]*\)", r"\1", text).replace("`", "")


def section(text: str, heading: str) -> str:
    """The text from a heading to the next of its level."""
    found = re.search(rf"^{re.escape(heading)}$", text, re.MULTILINE)
    if found is None:
        raise BadTable(f"there is no '{heading}'")
    level = len(heading) - len(heading.lstrip("#"))
    after = re.search(rf"^#{{1,{level}}} ", text[found.end() :], re.MULTILINE)
    return text[found.end() : found.end() + after.start() if after else len(text)]


def rows(text: str, heading: str) -> list[list[str]]:
    """The cells of the tables under a heading, without the rows of titles."""
    lines = [line for line in section(text, heading).splitlines() if line.startswith("|")]
    cells = [[cell.strip().replace("\\|", "|") for cell in re.split(r"(?<!\\)\|", line)[1:-1]] for line in lines]
    rules = {place for place, row in enumerate(cells) if set("".join(row)) <= set("-: ")}
    return [row for place, row in enumerate(cells) if place not in rules and place + 1 not in rules]


def pieces(cell: str) -> list[str]:
    """The parts of a cell between the commas that are in no bracket."""
    found, depth, last = [], 0, 0
    for place, c in enumerate(cell):
        depth += (c == "(") - (c == ")")
        if c == "," and depth == 0:
            found.append(cell[last:place].strip())
            last = place + 1
    found.append(cell[last:].strip())
    return [] if found == ["–"] else found


def port_of(piece: str) -> Port:
    found = re.match(r"`(\w+)(\?|\[1\.\.\]|\[0\.\.\])?`(?: (\S+))?$", piece)
    if found is None:
        raise BadTable(f"no port: {piece}")
    return Port(found[1], found[1].lower().endswith("output"), found[2] or "", found[3] or "")


def parameter_of(piece: str) -> Parameter:
    found = re.match(r"`(\w+)`(?: (required at the top|required|optional)| = `([^`]*)`)(?: \((.*)\))?$", piece)
    if found is None:
        raise BadTable(f"no parameter: {piece}")
    return Parameter(found[1], found[2] or "optional", found[3], plain(found[4] or ""))


def with_any(row: ClassRow) -> ClassRow:
    """A T that no other port of the row shares is any type."""
    shared = 1 < sum("T" in port.type for port in row.ports)
    return row if shared else replace(row, ports=tuple(replace(p, type="any") if p.type == "T" else p for p in row.ports))


def class_of(cells: list[str]) -> ClassRow:
    name, ports, parameters, does, under = cells
    declared = [piece for piece in pieces(ports) if piece.startswith("declared ")]
    return ClassRow(
        plain(name),
        tuple(port_of(piece) for piece in pieces(ports) if piece not in declared),
        tuple(parameter_of(piece) for piece in pieces(parameters)),
        ALL if under == "all" else frozenset(pieces(under)),
        {"declared inputs": "input", "declared outputs": "output"}[declared[0]] if declared else None,
        "at least one" in does.lower(),
    )


def coded(text: str, heading: str) -> dict[int, str]:
    """The names of codes by their numbers."""
    found = [row[0].split(" ") for row in rows(text, heading)]
    return {int(number): name for number, name in found}


# ---- comparison


def differences(what: str, ours: dict, theirs: dict, whose: str) -> list[str]:
    """The keys at which two tables differ, each with what they say."""
    wrong = [f"{what} {key} isn't in {whose}" for key in ours if key not in theirs]
    wrong += [f"{what} {key} is in {whose} and not in {FORMAT}" for key in theirs if key not in ours]
    both = [key for key in ours if key in theirs]
    return wrong + [f"{what} {key}: {first_difference(ours[key], theirs[key])} ({whose})" for key in both if ours[key] != theirs[key]]


def first_difference(ours, theirs) -> str:
    if not isinstance(ours, ClassRow):
        return f"'{ours}' here, '{theirs}' there"
    for name in ours.__dataclass_fields__:
        here, there = getattr(ours, name), getattr(theirs, name)
        if here != there:
            return f"{name} {shown(here)} here, {shown(there)} there"
    return "no difference"


def shown(value) -> str:
    if isinstance(value, tuple):
        return "; ".join(" ".join(str(part) for part in vars(item).values()) for item in value) or "none"
    return ", ".join(sorted(value)) if isinstance(value, frozenset) else str(value)


def source_faults(text: str, sources: Sources) -> list[str]:
    """Where the document differs from the program's tables."""
    classes = {row.name: with_any(row) for row in map(class_of, rows(text, "## Classes"))}
    tables = {name: with_any(row) for name, row in sources.classes.items()}
    directors = {plain(row[0]): tuple(map(parameter_of, pieces(row[1]))) for row in rows(text, "## Directors")}
    return [
        *differences("class", classes, tables, "the program's tables"),
        *differences("director", directors, sources.directors, "the program's tables"),
        *differences("code", coded(text, "## Refusals"), sources.codes, "the program's codes"),
        *differences("code", coded(text, "## Run faults"), sources.faults, "the program's codes"),
        *text_faults(text, sources),
        *status_faults(text, sources.statuses),
    ]


def text_faults(text: str, sources: Sources) -> list[str]:
    """Where a printed refusal or last line in the document has not the number and the name of its row."""
    wrong = []
    for cells in rows(text, "## Refusals"):
        if not cells[-1].startswith(f"`refused {cells[0]} "):
            wrong.append(f"code {cells[0]}: its text is {cells[-1]}")
    for cells in rows(text, "## Run faults"):
        if not cells[-1].startswith(f"`end fault {cells[0].split()[0]} "):
            wrong.append(f"code {cells[0]}: its last line is {cells[-1]}")
    known = {**sources.codes, **sources.faults}
    for number, name in re.findall(r"`refused (\d+) (\w+) [^`]+`", text):
        if known.get(int(number)) != name:
            wrong.append(f"'refused {number} {name}' has a number and a name that don't belong together")
    return wrong


def status_faults(text: str, statuses: list[str]) -> list[str]:
    """Where the table of statuses differs from the program's."""
    table = rows(text, "## Statuses")
    wrong = [] if [row[0] for row in table] == [str(n) for n in range(len(statuses))] else ["the numbers of the statuses differ"]
    for (number, *cells), name in zip(table, statuses):
        if name.lower() not in " ".join(cells).lower():
            wrong.append(f"status {number}: nothing there says {name}")
    return wrong


# ---- the schema


def under_text(row: ClassRow) -> str:
    order = [name for name in ("SDF", "PN", "Rendezvous", "SR", "DE") if name in row.directors]
    return ", ".join(order)


def description(cells: list[str]) -> str:
    """What the schema says of a class."""
    row = class_of(cells)
    return f"{plain(cells[3])} Ports: {plain(cells[1]).replace(', ', '; ')}. Under {under_text(row)}."


def parameter_end(parameter: Parameter) -> str:
    """How the schema's text on a parameter ends."""
    form = {"": "Int", "any": "Any token"}.get(parameter.form, parameter.form[:1].upper() + parameter.form[1:])
    if form.startswith("One of "):
        form = form.removesuffix(", as written").removeprefix("One of ").replace(" ", ", ")
        form = f"One of {form}, as written"
    need = f"Default {parameter.default}" if parameter.default is not None else parameter.need[:1].upper() + parameter.need[1:]
    return f" {form}. {need}."


def named(parameters: list) -> dict[str, str]:
    """The descriptions of the parameters that a part of the schema names."""
    return {one["const"]: one["description"] for one in parameters}


def schema_parameters(items: dict) -> dict[str, str]:
    return named(items["else"].get("properties", {}).get("name", {}).get("anyOf", []))


def parameter_faults(what: str, parameters: tuple[Parameter, ...], described: dict[str, str]) -> list[str]:
    ours = {parameter.name: parameter_end(parameter) for parameter in parameters}
    theirs = {name: text[-len(ours[name]) :] if name in ours else text for name, text in described.items()}
    return differences(f"{what}'s parameter", ours, theirs, "the schema")


def required_of(rule: dict) -> set[str]:
    """The parameters that the schema wants a list to contain."""
    return {one["contains"]["properties"]["name"]["const"] for one in rule.get("allOf", [])}


def class_faults(cells: list[str], rule: dict) -> list[str]:
    """Where the schema's rule for a class differs from its row."""
    row = class_of(cells)
    properties = rule["properties"]["properties"]
    wrong = parameter_faults(row.name, row.parameters, schema_parameters(properties["items"]))
    needed = {parameter.name for parameter in row.parameters if parameter.need == "required"}
    if required_of(properties) != needed:
        wrong.append(f"class {row.name}: the schema requires {sorted(required_of(properties))}, and the table {sorted(needed)}")
    if ("ports" in rule["propertyNames"]["enum"]) != (row.declares is not None):
        wrong.append(f"class {row.name}: the schema and the table don't agree whether it declares ports")
    return wrong


def schema_faults(text: str, schema: dict) -> list[str]:
    """Where the schema differs from the document."""
    rules = schema["$defs"]
    table = {plain(cells[0]): cells for cells in rows(text, "## Classes")}
    offered = named(rules["entity"]["properties"]["class"]["anyOf"])
    composites = {"Composite": offered.get("Composite"), "Modal": offered.get("Modal")}
    ours = {name: description(cells) for name, cells in table.items()}
    wrong = differences("class", {**ours, **composites}, offered, "the schema's list of classes")
    wrong += differences("class", ours, {name: rules[name]["description"] for name in table if name in rules}, "the schema")
    for name, cells in table.items():
        wrong += class_faults(cells, rules[name]) if name in rules else []
    for cells in rows(text, "## Directors"):
        described = schema_parameters(rules.get(f"parametersOf{plain(cells[0])}", {}).get("items", {"else": {}}))
        wrong += parameter_faults(f"director {plain(cells[0])}", tuple(map(parameter_of, pieces(cells[1]))), described)
    directors = [one["const"] for one in rules["director"]["properties"]["class"]["anyOf"]]
    if directors != [plain(cells[0]) for cells in rows(text, "## Directors")]:
        wrong.append(f"the schema has the directors {directors}")
    return wrong + identity_faults(schema)


def identity_faults(schema: dict) -> list[str]:
    """The schema says its dialect and its own name."""
    found = schema.get("$id", "")
    if not re.match(r"(urn:|https://)\S+$", found) or "$schema" not in schema:
        return [f"the schema has no proper $schema and $id: '{found}'"]
    return []


def table_faults(texts: Texts) -> list[str]:
    """Where docs/FORMAT.md, the schema and the program's tables differ."""
    text = texts.read(FORMAT)
    return source_faults(text, sources_of(texts)) + schema_faults(text, json.loads(texts.read(SCHEMA)))
