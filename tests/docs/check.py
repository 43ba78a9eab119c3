"""The check of the documents, and mistakes planted in them, each of which the check has to find."""

from collections.abc import Callable
from pathlib import Path

from .names import Repository
from .sources import BadSource, Texts
from .tables import FORMAT, SCHEMA, BadTable, table_faults


def checked(check: Callable[[Texts], list[str]], texts: Texts) -> list[str]:
    """What a check finds; a table that can't be read is a fault too."""
    try:
        return check(texts)
    except (BadSource, BadTable, KeyError, ValueError) as error:
        return [f"a table can't be read: {type(error).__name__}: {error}"]


def tables_with(texts: Texts, text: str) -> str:
    return texts.file_with("crates/*/src/tables.rt", text)


# What is changed in which file: a text that is there once at least, and what takes the place of the first one.
TABLE_MISTAKES = (
    (lambda t: FORMAT, "`step` = `1`", "`step` = `2`"),
    (lambda t: FORMAT, "`plus[0..]` int", "`plus[1..]` int"),
    (lambda t: FORMAT, "`preferred` T", "`prefered` T"),
    (lambda t: FORMAT, "| 22 SdfDeadlock |", "| 22 Deadlock |"),
    (lambda t: FORMAT, "`refused 14 Parameter Scale.fctor`", "`refused 13 Parameter Scale.fctor`"),
    (lambda t: FORMAT, "| 8 | queues are full |", "| 8 | jammed |"),
    (lambda t: SCHEMA, "Gives its value at each firing.", "Gives its value once."),
    (lambda t: SCHEMA, '"const": "numberOfTimes"', '"const": "times"'),
    (lambda t: SCHEMA, "Default 65536.", "Default 65535."),
    (lambda t: SCHEMA, '"$id": "urn:', '"$id": "'),
    (lambda t: tables_with(t, "pub static CLASSES"), 'parameter!("firingCountLimit", Optional)', 'parameter!("firingCountLimit", Required)'),
    (lambda t: tables_with(t, "pub static CLASSES"), 'class!("Absent", [OUTPUT], [], SR)', 'class!("Absent", [OUTPUT], [], SR_DE)'),
    (lambda t: tables_with(t, "pub static CLASSES"), 'port!("minus", Input, ManyOrNone)', 'port!("less", Input, ManyOrNone)'),
    (lambda t: tables_with(t, "pub static PORT_TYPES"), 'port!("StringLength", "input", Words)', 'port!("StringLength", "input", Int)'),
    (lambda t: tables_with(t, "pub static FORMS"), "Standard::Integer(65_536)", "Standard::Integer(65_535)"),
    (lambda t: tables_with(t, "pub static FORMS"), "const MOST_TOKENS: i64 = 1_000_000;", "const MOST_TOKENS: i64 = 2_000_000;"),
)
LINK_MISTAKES = (
    (lambda t: FORMAT, "](SEMANTICS.md)", "](MEANING.md)"),
    (lambda t: FORMAT, "](#run-faults)", "](#faults-of-a-run)"),
    (lambda t: "docs/SEMANTICS.md", "`Sdf.iterations`", "`Sdf.iteration_count`"),
    (lambda t: "docs/ARCHITECTURE.md", "`tests/edits`", "`tests/mistakes`"),
    (lambda t: "docs/ARCHITECTURE.md", "| | pt_sched |", "| | pt_schedules |"),
    (lambda t: "docs/ARCHITECTURE.md", "pt_order, pt_typed, pt_buildable", "pt_order, pt_typed, pt_plan"),
)


def missed(check: Callable[[Texts], list[str]], texts: Texts, known: set[str], mistake: tuple) -> list[str]:
    """What is wrong where a check doesn't find a planted mistake, beside the faults that are known."""
    place, old, new = mistake
    path = place(texts)
    text = texts.read(path)
    if old not in text:
        return [f"no mistake can be planted in {path}: it hasn't '{old}'"]
    found = set(checked(check, texts.with_text(path, text.replace(old, new, 1))))
    return [] if found - known else [f"'{new}' in place of '{old}' in {path} isn't found"]


def check_documents(root: Path) -> int:
    """Prints what is wrong with the documents, and gives the exit status."""
    texts = Texts(root)
    repository = Repository(texts)
    checks = [checked(table_faults, texts), *(repository.faults_in(path) for path in repository.documents)]
    known = {line for wrong in checks for line in wrong}
    checks += [missed(table_faults, texts, known, mistake) for mistake in TABLE_MISTAKES]
    checks += [missed(repository.faults, texts, known, mistake) for mistake in LINK_MISTAKES]
    for line in (line for wrong in checks for line in wrong):
        print(f"failed docs: {line}")
    failed = sum(1 for wrong in checks if wrong)
    print(f"{len(checks) - failed} passed, {failed} failed")
    return 1 if failed else 0
