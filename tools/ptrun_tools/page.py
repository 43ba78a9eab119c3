"""A model and its report as one HTML page that needs nothing but a browser."""

from __future__ import annotations

import html
import json
from dataclasses import dataclass, field
from pathlib import Path
from typing import NamedTuple

from . import drawing, picture
from .document import Document, NotJson
from .explain import explain_report, rendered
from .finding import Finding
from .model import Entity, Job
from .report import Meetings, Report, Trace, kind_of_trace
from .wiring import Wiring

DEFAULT_TOKENS = 100_000
DEFAULT_MEETINGS = 100_000
_ASSETS = Path(__file__).resolve().parent / "assets"
# Numbers up to here are exact in a browser.
_EXACT = 2**53


class Options(NamedTuple):
    """How much of a run a page shows, and how long its drawing may take."""

    tokens: int = DEFAULT_TOKENS
    limit: int = drawing.DEFAULT_LIMIT
    seconds: float = 60


@dataclass
class Page:
    html: str
    # What was left out.
    notes: list[str] = field(default_factory=list)


def page(name: str, data: bytes, report: Report, options: Options = Options()) -> Page:
    """The page of a document and a report of it."""
    made = Page("")
    finding = explain_report(data, report)
    try:
        job = Job(Document(data))
    except NotJson:
        job = None
    picture = _picture(job, finding, options, made) if job else ""
    shown = {
        "traces": [_trace(trace, options.tokens, made) for trace in report.traces],
        "meetings": [_meetings(meetings, job, made) for meetings in report.meetings if job],
    }
    model = Path(name).stem or name
    made.html = _filled(
        (_ASSETS / "page.html").read_text(encoding="utf-8"),
        {
            "TITLE": html.escape(f"{model}: {report.end_text}"),
            "MODEL": html.escape(model),
            "FILE": html.escape(name),
            "END": html.escape(report.end_text),
            "STATE": "trouble" if finding.is_trouble else "fine",
            "EXPLAINED": html.escape(rendered(name, data, finding)) if finding.is_trouble else html.escape(finding.meaning),
            "PICTURE": picture,
            "NOTES": "".join(f"<p>{html.escape(note)}.</p>" for note in made.notes),
            "STYLE": (_ASSETS / "page.css").read_text(encoding="utf-8"),
            # A less-than sign as an escape, so that no text of a model ends the script.
            "DATA": json.dumps(shown, ensure_ascii=True, separators=(",", ":")).replace("<", "\\u003c"),
            "SCRIPT": (_ASSETS / "page.js").read_text(encoding="utf-8"),
        },
    )
    return made


def _filled(template: str, parts: dict[str, str]) -> str:
    """The template with its marks replaced in one pass, so that no text is taken for a mark."""
    pieces = template.split("%%")
    return "".join(parts[piece] if number % 2 else piece for number, piece in enumerate(pieces))


def _picture(job: Job, finding: Finding, options: Options, made: Page) -> str:
    drawn = drawing.draw(job, None, options.limit, finding.marks if finding.is_trouble else ())
    made.notes += drawn.notes
    try:
        return picture.svg_of(drawn, options.seconds)
    except (picture.NoGraphviz, picture.NoLayout) as fault:
        made.notes.append(f"There is no drawing: {fault}")
        return f"<details><summary>The drawing as DOT text</summary><pre>{html.escape(drawn.dot[:200_000])}</pre></details>"


def _number(value: int) -> int | str:
    return value if -_EXACT < value < _EXACT else str(value)


def _trace(trace: Trace, at_most: int, made: Page) -> dict:
    """A trace as lists of times, steps and values."""
    shown = trace.tokens[:at_most]
    if len(shown) < len(trace.tokens):
        made.notes.append(f"Of the {len(trace.tokens):,} tokens of {trace.port} the first {len(shown):,} are shown")
    kind = kind_of_trace(trace)
    return {
        "port": trace.port,
        "kind": kind,
        "total": len(trace.tokens),
        "times": [_number(token.time) for token in shown],
        "steps": [token.step for token in shown],
        "values": [_number(int(token.value)) if kind == "int" else token.value[:2000] for token in shown],
    }


def _meetings(meetings: Meetings, job: Job, made: Page) -> dict:
    """The meetings of a composite: who takes part, and from whom to whom each of them goes."""
    composite = job.entity(meetings.path) or job.top
    below = "" if composite.parent is None else composite.path + "."
    wiring, lines = Wiring(job), {}
    people = _Participants()
    for name in (port.name for port in composite.ports if not port.is_output):
        people.number(f"in {name}")
    for child in composite.walk():
        if child.above is composite and not child.is_transparent:
            people.number(child.path[len(below):])
    shown = meetings.made[:DEFAULT_MEETINGS]
    if len(shown) < len(meetings.made):
        made.notes.append(f"Of the {len(meetings.made):,} meetings of {meetings.path} the first {len(shown):,} are shown")
    rows = []
    for meeting in shown:
        if meeting.what not in lines:
            lines[meeting.what] = _line(meeting.what, composite, below, wiring, people)
        rows.append([meeting.firing, meeting.index, *lines[meeting.what]])
    return {"path": meetings.path, "people": people.names, "rows": rows}


class _Participants:
    """The participants of a sequence chart, numbered in the order in which they come up."""

    def __init__(self) -> None:
        self.names: list[str] = []
        self.numbers: dict[str, int] = {}

    def number(self, name: str) -> int:
        if name not in self.numbers:
            self.numbers[name] = len(self.names)
            self.names.append(name)
        return self.numbers[name]


def _line(what: tuple[str, ...], composite: Entity, below: str, wiring: Wiring, people: _Participants) -> list:
    """A meeting as senders, receiver and label."""
    kind, text = what[0], what[1]
    if kind == "barrier":
        entity = composite.child_at(text.split("."))
        channels = [end for end in (wiring.sender(f"{below}{text}.input", index) for index in range(_links(entity))) if end]
        return [[people.number(_sender(end, composite, below)) for end in channels], people.number(text), "barrier"]
    if kind == "out":
        sender = wiring.sender_of_output(below + text)
        return [[people.number(_sender(sender, composite, below))] if sender else [], people.number(f"out {text}"), text]
    child_port, _, index = text.rpartition(".")
    child, _, port = child_port.rpartition(".")
    sender = wiring.sender(below + child_port, int(index))
    entity = composite.child_at(child.split("."))
    label = f"{port}[{index}]" if entity and entity.is_multiport(port) else port
    return [[people.number(_sender(sender, composite, below))] if sender else [], people.number(child), label]


def _links(entity: Entity | None) -> int:
    """How many links lead to an entity, at most: channels without a sender are left out anyway."""
    if entity is None or entity.parent is None:
        return 0
    return sum(link.text("port").startswith(entity.name + ".") for link in entity.parent.links)


def _sender(end, composite: Entity, below: str) -> str:
    return f"in {end.port}" if end.entity is composite else end.entity.path[len(below):]
