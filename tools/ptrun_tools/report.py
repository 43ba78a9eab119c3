"""A report of ptrun: traces, meetings, full channels and the end, and the values of tokens."""

from __future__ import annotations

import re
from dataclasses import dataclass, field
from typing import NamedTuple


class NoReport(Exception):
    """The text is no report: which line, and why."""

    def __init__(self, line: int, reason: str):
        super().__init__(f"line {line}: {reason}")
        self.line = line
        self.reason = reason


class Token(NamedTuple):
    """A token of a trace: its tag, and its value as printed."""

    time: int
    step: int
    value: str


@dataclass
class Trace:
    port: str
    tokens: list[Token] = field(default_factory=list)


class Meeting(NamedTuple):
    """A meeting: its firing of the composite, its index in it, and what it was."""

    firing: int
    index: int
    what: tuple[str, ...]


@dataclass
class Meetings:
    path: str
    made: list[Meeting] = field(default_factory=list)


class Full(NamedTuple):
    """A full channel that is waited for: the port of a child, the channel's index there, and its length."""

    port: str
    channel: int
    length: int


@dataclass
class Report:
    traces: list[Trace] = field(default_factory=list)
    meetings: list[Meetings] = field(default_factory=list)
    full: list[Full] = field(default_factory=list)
    # The words of the last line after `end`, or those of a refusal with `refused`.
    end: tuple[str, ...] = ()

    @property
    def is_refusal(self) -> bool:
        return self.end[:1] == ("refused",)

    @property
    def end_text(self) -> str:
        return " ".join(self.end if self.is_refusal else ("end", *self.end))


_TOKEN = re.compile(r"(0|[1-9]\d*) (0|[1-9]\d*)\.(0|[1-9]\d*) (.+)", re.DOTALL | re.ASCII)
_MEETING = re.compile(r"(0|[1-9]\d*) (0|[1-9]\d*) (meet \S+|out \S+|barrier \S+)", re.ASCII)
_FULL = re.compile(r"full (\S+)\.(\d+) (\d+)", re.ASCII)
_END = re.compile(
    r"end (?:stop|idle|iterations|inputs|deadlock|fault \d+ \S+ \d+|budget \d+|queue \S+ \d+)", re.ASCII
)
_REFUSED = re.compile(r"refused (?:\S+|\d+ \w+ \S+)", re.ASCII)


def read_report(data: bytes) -> Report:
    """The report of these bytes, or NoReport at the first line that is none of a report."""
    try:
        text = data.decode("utf-8")
    except UnicodeDecodeError as error:
        raise NoReport(data.count(b"\n", 0, error.start) + 1, "the bytes are no UTF-8") from None
    lines = text.split("\n")
    if lines[-1]:
        raise NoReport(len(lines), "the last line isn't ended by a line feed")
    report = Report()
    for number, line in enumerate(lines[:-1], 1):
        if report.end:
            raise NoReport(number, "nothing follows the line 'end ..' of a report")
        reason = _read_line(report, line)
        if reason:
            raise NoReport(number, reason)
    if not report.end:
        raise NoReport(len(lines) - 1 or 1, "the text ends before the line 'end ..' or 'refused ..'")
    return report


def _read_line(report: Report, line: str) -> str:
    """Adds a line to a report, or tells why it is none."""
    word = line.split(" ", 1)[0]
    if word == "end" and _END.fullmatch(line):
        report.end = tuple(line.split(" ")[1:])
    elif word == "refused" and _REFUSED.fullmatch(line) and not report.traces:
        report.end = tuple(line.split(" "))
    elif word == "trace" and line.count(" ") == 1 and not (report.meetings or report.full):
        report.traces.append(Trace(line[len("trace "):]))
    elif word == "meetings" and line.count(" ") == 1 and not report.full:
        report.meetings.append(Meetings(line[len("meetings "):]))
    elif full := _FULL.fullmatch(line):
        report.full.append(Full(full[1], int(full[2]), int(full[3])))
    elif report.meetings and not report.full:
        return _add_meeting(report.meetings[-1], line)
    elif report.traces and not report.full:
        return _add_token(report.traces[-1], line)
    else:
        return "this is no line of a report"
    return ""


def _add_token(trace: Trace, line: str) -> str:
    match = _TOKEN.fullmatch(line)
    if not match:
        return "a token of a trace is wanted here, as '0 0.0 1', or the next part of a report"
    if int(match[1]) != len(trace.tokens):
        return f"token number {len(trace.tokens)} is wanted here"
    trace.tokens.append(Token(int(match[2]), int(match[3]), match[4]))
    return ""


def _add_meeting(meetings: Meetings, line: str) -> str:
    match = _MEETING.fullmatch(line)
    if not match:
        return "a meeting is wanted here, as '0 0 meet a.input.0', or the next part of a report"
    meetings.made.append(Meeting(int(match[1]), int(match[2]), tuple(match[3].split(" "))))
    return ""


def kind_of(value: str) -> str:
    """The kind of a printed token: int, truth, text, array or record."""
    if value in ("true", "false"):
        return "truth"
    if value[:1] == '"':
        return "text"
    if value[:1] == "{":
        return "record" if re.match(r"\{[A-Za-z_]\w* = ", value, re.ASCII) else "array"
    return "int" if re.fullmatch(r"-?\d+", value, re.ASCII) else "other"


def kind_of_trace(trace: Trace) -> str:
    """The kind that all tokens of a trace have, or `mixed`, or `none` without a token."""
    kinds = {kind_of(token.value) for token in trace.tokens}
    return kinds.pop() if len(kinds) == 1 else "mixed" if kinds else "none"


def text_of(value: str) -> str:
    """What a printed text says."""
    escapes = {"n": "\n", "t": "\t", "r": "\r"}
    return re.sub(r"\\(.)", lambda match: escapes.get(match[1], match[1]), value[1:-1])
