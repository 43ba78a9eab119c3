"""The tables of the program, read from its sources: classes, ports, parameters, directors, codes and statuses."""

import re
from dataclasses import dataclass, field, replace
from pathlib import Path


class BadSource(Exception):
    """A table that isn't where it was, or isn't written as it was."""


class Texts:
    """The files of the repository, some of them perhaps replaced by other texts."""

    def __init__(self, root: Path, replaced: dict[str, str] | None = None):
        self.root = root
        self.replaced = replaced or {}

    def read(self, path: str) -> str:
        return self.replaced[path] if path in self.replaced else (self.root / path).read_text()

    def with_text(self, path: str, text: str) -> "Texts":
        return Texts(self.root, {**self.replaced, path: text})

    def file_with(self, pattern: str, text: str) -> str:
        """The one file of this pattern that has this text."""
        paths = [str(path.relative_to(self.root)) for path in sorted(self.root.glob(pattern))]
        found = [path for path in paths if text in self.read(path)]
        if len(found) != 1:
            raise BadSource(f"{len(found)} files {pattern} have '{text}'")
        return found[0]


@dataclass(frozen=True)
class Port:
    """A port of a class: how many channels it may have, as the format writes it, and the type that passes."""

    name: str
    is_output: bool
    arity: str
    type: str


@dataclass(frozen=True)
class Parameter:
    """A parameter: whether it has to be given, its default, and which values it takes, as the format writes them."""

    name: str
    need: str
    default: str | None
    form: str


@dataclass(frozen=True)
class ClassRow:
    name: str
    ports: tuple[Port, ...]
    parameters: tuple[Parameter, ...]
    directors: frozenset[str]
    declares: str | None = None
    asks_for_one: bool = False


@dataclass
class Sources:
    """What the sources say."""

    classes: dict[str, ClassRow] = field(default_factory=dict)
    directors: dict[str, tuple[Parameter, ...]] = field(default_factory=dict)
    codes: dict[int, str] = field(default_factory=dict)
    faults: dict[int, str] = field(default_factory=dict)
    statuses: list[str] = field(default_factory=list)


ARITIES = {"Single": "", "Optional": "?", "Many": "[1..]", "ManyOrNone": "[0..]"}
NEEDS = {"Required": "required", "Optional": "optional", "RequiredAtTop": "required at the top"}
DIRECTOR_NAMES = {"Sdf": "SDF", "Pn": "PN", "Rendezvous": "Rendezvous", "Sr": "SR", "De": "DE"}
PORT_TYPES = {
    "Int": "int", "Boolean": "boolean", "Row": "T", "RowArray": "arrayType(T)", "Words": "string", "Tree": "",
    "Assembled": "record", None: "any",
}
FORMS = {
    "NUMBER": "", "LIMIT": "0 to 1,000,000,000", "COUNT": "1 to 1,000,000", "TIME": "0 to 2^62", "PERIOD": "1 to 2^62",
    "Form::Any": "any", "Form::FullArray": "array with an element", "Form::Truth": "boolean", "Form::Array": "array",
    "Form::Offsets": "array of int", "Form::Tree": "an expression",
    "Form::Comparison": "one of < <= > >= ==, as written",
    "Form::Function": "one of and or xor nand nor xnor, as written", "Form::Gate": "one of and or, as written",
}
# The bounds of the forms that have a name, by the constants of their file.
BOUNDS = {
    "NUMBER": ("i64::MIN", "i64::MAX"), "LIMIT": ("0", "1000000000"), "COUNT": ("1", "1000000"),
    "TIME": ("0", str(2**62)), "PERIOD": ("1", str(2**62)),
}
# What a class takes as the word that isn't given.
FIRST_WORDS = {"Form::Comparison": ">", "Form::Function": "and", "Form::Gate": "and"}


# ---- Rust, as far as tables need it


def without_comments(text: str) -> str:
    return re.sub(r"//[^\n]*", "", text)


def balanced(text: str, start: int) -> int:
    """The place of the bracket that closes the one at this place."""
    closes = {"(": ")", "[": "]", "{": "}"}
    depth, quoted = [], False
    for place in range(start, len(text)):
        c = text[place]
        if c == '"':
            quoted = not quoted
        elif quoted:
            continue
        elif c in closes:
            depth.append(closes[c])
        elif depth and c == depth[-1]:
            depth.pop()
            if not depth:
                return place
    raise BadSource("a bracket isn't closed")


def parts(text: str) -> list[str]:
    """The parts between the commas that are in no bracket."""
    found, last, place = [], 0, 0
    while place < len(text):
        c = text[place]
        if c == '"':
            place = text.index('"', place + 1)
        elif c in "([{":
            place = balanced(text, place)
        elif c == ",":
            found.append(text[last:place].strip())
            last = place + 1
        place += 1
    return [part for part in [*found, text[last:].strip()] if part]


def items_of(text: str, name: str) -> list[str]:
    """The items of a static or constant list of this name."""
    found = re.search(rf"\b(?:static|const) {name}: [^=]*= &?\[", text)
    if found is None:
        raise BadSource(f"there is no list {name}")
    return parts(text[found.end() : balanced(text, found.end() - 1)])


def call_of(text: str) -> tuple[str, list[str]]:
    """The name and the arguments of a macro's call."""
    found = re.match(r"(\w+)!\(", text)
    if found is None:
        raise BadSource(f"no call of a macro: {text[:40]}")
    return found[1], parts(text[found.end() : balanced(text, found.end() - 1)])


def word(text: str) -> str:
    return text.strip().strip('"')


# ---- the tables


class Tables:
    """The tables of classes, of types of ports and of forms of parameters."""

    def __init__(self, texts: Texts):
        self.classes = without_comments(texts.read(texts.file_with("crates/*/src/tables.rt", "pub static CLASSES")))
        self.ports = without_comments(texts.read(texts.file_with("crates/*/src/tables.rt", "pub static PORT_TYPES")))
        self.forms = without_comments(texts.read(texts.file_with("crates/*/src/tables.rt", "pub static FORMS")))
        self.constants = dict(re.findall(r"const (\w+): Class\w+ = (\w+!\([^;]*\));", self.classes))
        self.types = self.port_types()
        self.values = self.form_rows()

    def port_types(self) -> dict[tuple[str, str], str]:
        rows = [call_of(item)[1] for item in items_of(self.ports, "PORT_TYPES")]
        return {(word(row[0]), word(row[1])): row[2].strip() for row in rows}

    def form_rows(self) -> dict[tuple[str, str], tuple[str, str]]:
        self.check_bounds()
        rows = [call_of(item)[1] for item in items_of(self.forms, "FORMS")]
        return {(word(row[0]), word(row[1])): (row[2].strip(), row[3].strip()) for row in rows}

    def check_bounds(self) -> None:
        """The forms that have a name are of the bounds that are meant here."""
        numbers = {name: value.replace("_", "") for name, value in re.findall(r"const (\w+): i64 = ([\d_]+);", self.forms)}
        for name, bounds in BOUNDS.items():
            found = re.search(rf"const {name}: Form = Form::Integer {{\s*least: ([\w:]+),\s*most: ([\w:]+),?\s*}}", self.forms)
            if found is None or tuple(numbers.get(bound, bound) for bound in found.groups()) != bounds:
                raise BadSource(f"the form {name} has other bounds")

    def call(self, text: str) -> tuple[str, list[str]]:
        return call_of(self.constants.get(text.strip(), text.strip()))

    def port(self, class_name: str, text: str) -> Port:
        name, direction, arity = self.call(text)[1]
        given = self.types.get((class_name, word(name)))
        return Port(word(name), direction == "Output", ARITIES[arity], PORT_TYPES[given])

    def parameter(self, class_name: str, text: str) -> Parameter:
        macro, (name, need) = self.call(text)
        form, standard = self.values[class_name, word(name)]
        if (macro == "raw") != (form in ("Form::Tree", *FIRST_WORDS)):
            raise BadSource(f"{class_name}.{name}: whether it is raw, and its form, don't agree")
        return Parameter(word(name), NEEDS[need], default_of(form, standard), FORMS[form])

    def class_row(self, text: str) -> ClassRow:
        outside, inside = "", text
        if text.startswith("ClassRow"):
            place = text.index("..class!")
            outside, inside = text[:place], text[place + 2 : text.rindex("}")].strip()
        _, (name, ports, parameters, directors) = call_of(inside)
        name = word(name)
        declares = re.search(r"declares: Some\(Direction::(\w+)\)", outside)
        return ClassRow(
            name,
            tuple(self.port(name, port) for port in parts(ports[1:-1])),
            tuple(self.parameter(name, parameter) for parameter in parts(parameters[1:-1])),
            frozenset(DIRECTOR_NAMES[part.split("::")[1]] for part in items_of(self.classes, directors.strip())),
            declares[1].lower() if declares else None,
            "least_channels: 1" in outside or "is_declaring: true" in outside,
        )

    def director(self, text: str) -> tuple[str, tuple[Parameter, ...]]:
        _, (name, _, parameters) = call_of(text)
        return word(name), tuple(self.parameter(word(name), parameter) for parameter in parts(parameters[1:-1]))


def default_of(form: str, standard: str) -> str | None:
    """The default of a parameter, as the format writes it."""
    found = re.match(r"Standard::(\w+)(?:\((\w+)\))?$", standard)
    kind, value = found[1], (found[2] or "").replace("_", "")
    return {"Nothing": None, "Integer": value, "Truth": value, "Single": f"{{{value}}}", "FirstWord": FIRST_WORDS.get(form)}[kind]


def with_rules(row: ClassRow) -> ClassRow:
    """What no table says: a phase is below its factor, and what a RecordDisassembler takes is a record."""
    phased = tuple(replace(p, form="0 to factor minus 1") if p.name == "phase" else p for p in row.parameters)
    ports = tuple(replace(p, type="record") if row.name == "RecordDisassembler" else p for p in row.ports)
    return replace(row, parameters=phased, ports=ports)


def check_words(texts: Texts) -> None:
    """The words of comparison and function are those that are meant here."""
    text = texts.read(texts.file_with("crates/*/src/giving.rt", "fn is_comparison"))
    for name, form in (("is_comparison", "Form::Comparison"), ("is_function", "Form::Function"), ("is_gate", "Form::Gate")):
        body = text[text.index(f"fn {name}") :]
        words = set(re.findall(r'"([^"]+)"', body[: body.index("\n}")]))
        if words != set(FORMS[form].removeprefix("one of ").removesuffix(", as written").split()):
            raise BadSource(f"{name} has other words: {sorted(words)}")


def numbered(text: str, kind: str) -> dict[int, str]:
    """The names by the numbers of an enum's function."""
    return {int(number): name for name, number in re.findall(rf"{kind}::(\w+) => (\d+),", text)}


def codes_of(text: str) -> dict[int, str]:
    """The printed names of refusals by their numbers."""
    printed = dict(re.findall(r'Code::(\w+) => "(\w+)",', text))
    return {number: printed[name] for number, name in numbered(text, "Code").items()}


def sources_of(texts: Texts) -> Sources:
    tables = Tables(texts)
    check_words(texts)
    rows = [with_rules(tables.class_row(item)) for item in items_of(tables.classes, "CLASSES")]
    status = without_comments(texts.read(texts.file_with("crates/*/src/status.rt", "pub enum Status")))
    variants = status[status.index("pub enum Status") :]
    return Sources(
        {row.name: row for row in rows},
        dict(tables.director(item) for item in items_of(tables.classes, "DIRECTORS")),
        codes_of(texts.read(texts.file_with("crates/*/src/*.rt", "Code::Json => 10,"))),
        numbered(texts.read(texts.file_with("crates/*/src/*.rt", "RunFault::DivideByZero => 30,")), "RunFault"),
        re.findall(r"^\s+(\w+),$", variants[: variants.index("}")], re.MULTILINE),
    )
