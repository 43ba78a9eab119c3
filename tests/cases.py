"""The cases that tests/run runs: folders of tests/rows, tables of tests/tables, and the examples."""

import copy
import json
import os
import subprocess
import sys
from collections import Counter
from dataclasses import dataclass, field
from pathlib import Path

import made as makers

TESTS = Path(__file__).resolve().parent
ROOT = TESTS.parent
EXAMPLES = ROOT / "examples"
EXAMPLE_NEEDS = TESTS / "examples"

ROW_FILES = {
    "about", "args", "status", "stdout", "judge.py", "model.json", "make.py", "stdin", "before", "sink",
    "needs", "schema",
}
TABLE_FIELDS = {"about", "needs", "args", "status", "schema", "bases", "cases"}
CASE_FIELDS = {
    "name", "about", "needs", "args", "status", "schema", "stdout", "either",
    "document", "text", "hex", "base", "set", "drop", "made",
}


# What a case may need, in the order in which it is built.
WORDS = (
    "document", "expressions", "types", "rates", "nested", "declared", "guards", "sr", "lines", "de", "machines", "modal", "pn", "capacities", "threads", "rendezvous",
    "generated", "several", "classes", "certificates", "wide", "giotto",
)

# The scripts of cases may import the modules beside this one.
SCRIPT_ENVIRONMENT = {**os.environ, "PYTHONPATH": str(TESTS), "PYTHONDONTWRITEBYTECODE": "1"}


class BadCase(Exception):
    """A case that isn't written as tests/README.md says."""


@dataclass
class Case:
    name: str
    about: str
    words: list[str]
    status: int
    outputs: list[bytes] = field(default_factory=list)
    judge: Path | None = None
    needs: set[str] = field(default_factory=set)
    document: bytes = b""
    maker: Path | None = None
    made: tuple | None = None
    before: list[list[str]] = field(default_factory=list)
    directory: bool = False
    sink: str | None = None
    schema: str | None = None

    def given(self) -> bytes:
        """What stands on standard input."""
        if self.made is not None:
            name, *arguments = self.made
            document = getattr(makers, name)(*arguments)
            return (document if isinstance(document, str) else json.dumps(document)).encode()
        if self.maker is None:
            return self.document
        made = subprocess.run(
            [sys.executable, str(self.maker)], env=SCRIPT_ENVIRONMENT, stdout=subprocess.PIPE, check=True, timeout=300,
        )
        return made.stdout

    def waits_for(self, built: set[str]) -> set[str]:
        """What the case needs and isn't built."""
        return self.needs - built


def words_of(path: Path) -> list[str]:
    """One word a line; an absent file has none."""
    return path.read_text().split("\n")[:-1] if path.exists() else []


def schema_answer(told: str | None, status: int) -> str | None:
    """What the schema says of a document: what the case tells, or that it accepts a document that is run."""
    if told not in (None, "accepts", "rejects", "any"):
        raise BadCase(f"'{told}' is no answer of the schema")
    if told is None and status in (0, 3, 4, 8):
        return "accepts"
    return None if told == "any" else told


# ---- folders


def row_case(folder: Path) -> Case:
    names = {path.name for path in folder.iterdir()}
    outputs = sorted(name for name in names if name == "stdout" or name.startswith("stdout."))
    unknown = names - ROW_FILES - set(outputs)
    if unknown or "about" not in names or "args" not in names or "status" not in names:
        raise BadCase(f"{folder}: a file is missing or unknown {sorted(unknown)}")
    if not outputs and "judge.py" not in names and "sink" not in names:
        raise BadCase(f"{folder}: nothing says what is written")
    status = int((folder / "status").read_text())
    model = folder / "model.json"
    stdin = (folder / "stdin").read_text().strip() if "stdin" in names else ""
    if stdin not in ("", "directory"):
        raise BadCase(f"{folder}: stdin is 'directory', or isn't there")
    case = Case(
        name=f"rows/{folder.name}",
        about=(folder / "about").read_text().strip(),
        words=words_of(folder / "args"),
        status=status,
        outputs=[(folder / name).read_bytes() for name in outputs],
        judge=folder / "judge.py" if "judge.py" in names else None,
        needs=set(words_of(folder / "needs")),
        document=model.read_bytes() if model.exists() else b"",
        maker=folder / "make.py" if "make.py" in names else None,
        before=[line.split() for line in words_of(folder / "before")],
        directory=stdin == "directory",
        sink=(folder / "sink").read_text().strip() if "sink" in names else None,
    )
    if "schema" in names:
        case.schema = schema_answer((folder / "schema").read_text().strip(), status)
    elif model.exists():
        case.schema = schema_answer(None, status)
    return case


def row_cases() -> list[Case]:
    return [row_case(folder) for folder in sorted((TESTS / "rows").iterdir()) if folder.is_dir()]


# ---- tables


def text_of(lines) -> bytes:
    """A text is one line or a list of lines, each ended by LF."""
    lines = [lines] if isinstance(lines, str) else lines
    return "".join(line + "\n" for line in lines).encode()


def find(value, key: str):
    """The place of a part: a member's key, an item's number, '-' behind the last, or the item of that name or port."""
    if isinstance(value, dict):
        return key
    if key == "-":
        return len(value)
    if key.isdigit():
        return int(key)
    for number, item in enumerate(value):
        if isinstance(item, dict) and key in (item.get("name"), item.get("port"), item.get("relation1"), item.get("from")):
            return number
    raise BadCase(f"no item is named {key}")


def split(document, pointer: str):
    """The part that holds what a pointer names, and its place in there."""
    keys = pointer.split("/")[1:]
    holder = document
    for key in keys[:-1]:
        holder = holder[find(holder, key)]
    return holder, find(holder, keys[-1])


def set_part(document, pointer: str, value):
    holder, place = split(document, pointer)
    if isinstance(holder, list) and place == len(holder):
        holder.append(copy.deepcopy(value))
    else:
        holder[place] = copy.deepcopy(value)


def drop_part(document, pointer: str):
    holder, place = split(document, pointer)
    del holder[place]


def case_document(table: dict, case: dict) -> bytes:
    given = [key for key in ("document", "text", "hex", "base", "made") if key in case]
    if len(given) != 1:
        raise BadCase(f"{case['name']}: one of document, text, hex, base and made")
    if "made" in case:
        return b""
    if "text" in case:
        return case["text"].encode()
    if "hex" in case:
        return bytes.fromhex(case["hex"])
    document = copy.deepcopy(case["document"] if "document" in case else table["bases"][case["base"]])
    for pointer, value in case.get("set", {}).items():
        set_part(document, pointer, value)
    for pointer in case.get("drop", []):
        drop_part(document, pointer)
    return json.dumps(document).encode()


def table_case(path: Path, table: dict, case: dict) -> Case:
    unknown = set(case) - CASE_FIELDS
    if unknown or "name" not in case or "about" not in case:
        raise BadCase(f"{path.name} {case.get('name')}: a field is missing or unknown {sorted(unknown)}")
    status = case.get("status", table.get("status", 0))
    outputs = case["either"] if "either" in case else [case["stdout"]]
    # A long document is made only where the case is run, and the schema isn't asked of it.
    told = case.get("schema", table.get("schema", "any" if "made" in case else None))
    return Case(
        name=f"{path.stem}/{case['name']}",
        about=case["about"],
        words=case.get("args", table.get("args", ["run"])),
        status=status,
        outputs=[text_of(lines) for lines in outputs],
        needs=set(table.get("needs", [])) | set(case.get("needs", [])),
        document=case_document(table, case),
        made=tuple(case["made"]) if "made" in case else None,
        schema=schema_answer(told, status),
    )


def table_cases() -> list[Case]:
    cases = []
    for path in sorted((TESTS / "tables").glob("*.json")):
        table = json.loads(path.read_text())
        unknown = set(table) - TABLE_FIELDS
        if unknown:
            raise BadCase(f"{path.name}: unknown fields {sorted(unknown)}")
        cases += [table_case(path, table, case) for case in table["cases"]]
    return cases


# ---- examples


def status_of_text(text: bytes) -> int:
    """The status that a text tells by its last line."""
    last = text.splitlines()[-1].split()
    if last[0] == b"refused":
        return 2
    return {b"fault": 3, b"budget": 4, b"queue": 8}.get(last[1], 0)


def example_needs() -> dict[str, set[str]]:
    """The lines 'NAME: WORD WORD' of tests/examples."""
    needs = {}
    for line in EXAMPLE_NEEDS.read_text().splitlines():
        line = line.split("#")[0].strip()
        if line:
            name, words = line.split(":")
            needs[name.strip()] = set(words.split())
    return needs


def example_cases() -> list[Case]:
    needs = example_needs()
    cases = []
    for path in sorted(EXAMPLES.glob("*.json")):
        text = path.with_suffix(".txt").read_bytes()
        others = [other.read_bytes() for other in sorted(EXAMPLES.glob(f"{path.stem}.[2-9].txt"))]
        if path.stem not in needs:
            raise BadCase(f"tests/examples has no line for {path.stem}")
        status = status_of_text(text)
        cases.append(Case(
            name=f"examples/{path.stem}",
            about=f"the example {path.stem} gives its text, or one of them",
            words=["run"],
            status=status,
            outputs=[text, *others],
            needs=needs[path.stem],
            document=path.read_bytes(),
            schema=schema_answer(None, status),
        ))
    return cases


def known(words: set[str], place: str) -> set[str]:
    """These words, each of which stands in the list."""
    if not words <= set(WORDS):
        raise BadCase(f"{place}: unknown words {sorted(words - set(WORDS))}")
    return words


def all_cases() -> list[Case]:
    cases = row_cases() + table_cases() + example_cases()
    counts = Counter(case.name for case in cases)
    repeated = sorted(name for name, count in counts.items() if count > 1)
    if repeated:
        raise BadCase(f"repeated names {repeated}")
    for case in cases:
        known(case.needs, case.name)
    return cases
