"""A report as waves: a VCD file for waveform viewers such as GTKWave.

A tag is a time and a microstep, and several tokens of a port may have one tag. The time of the file keeps all three
apart: the greatest unit is a tick, below it the microsteps have digits, and below them the tokens of one port and tag.
"""

from __future__ import annotations

from collections import Counter
from dataclasses import dataclass
from typing import Iterator

from .report import Report, Trace, kind_of_trace, text_of

# Names of a second of seconds, from the largest to the smallest that a VCD file has.
_UNITS = ("s", "ms", "us", "ns", "ps", "fs")
_LARGEST_TIME = 2**63 - 1
_TYPES = {"int": ("integer", 64), "truth": ("wire", 1)}


class NoWaves(Exception):
    """The report has nothing that can be shown as waves."""


@dataclass(frozen=True)
class Scale:
    """How a tag becomes a time: microsteps in a tick, and places for tokens in a microstep, both powers of ten."""

    steps: int
    places: int

    @property
    def tick(self) -> int:
        """How many units of the file are one tick."""
        return self.steps * self.places

    def at(self, time: int, step: int, place: int) -> int:
        return (time * self.steps + step) * self.places + place

    @property
    def unit(self) -> str:
        """The unit of the file's time, such that one tick is a second; `1 s` where a second has too few parts."""
        digits = len(str(self.tick)) - 1
        if digits > 15:
            return "1 s"
        return f"{10 ** (-digits % 3)} {_UNITS[-(-digits // 3)]}"


def power_above(number: int) -> int:
    """The least power of ten that is greater than this number, or 1 for 0."""
    return 10 ** len(str(number)) if number else 1


def scale_of(report: Report) -> Scale:
    """The scale by which no two tokens of a port fall on one time."""
    step = max((token.step for trace in report.traces for token in trace.tokens), default=0)
    most = max((max(Counter((token.time, token.step) for token in trace.tokens).values(), default=1) for trace in report.traces), default=1)
    return Scale(power_above(step), power_above(most - 1))


def placed(trace: Trace, scale: Scale) -> Iterator[tuple[int, str]]:
    """Each token's time in the file and its value; tokens of one tag follow each other."""
    seen: Counter[tuple[int, int]] = Counter()
    for token in trace.tokens:
        tag = (token.time, token.step)
        yield scale.at(token.time, token.step, seen[tag]), token.value
        seen[tag] += 1


def identifier(number: int) -> str:
    """The short name of a variable in the file."""
    signs = [chr(code) for code in range(33, 127)]
    short = signs[number % len(signs)]
    while number >= len(signs):
        number = number // len(signs) - 1
        short += signs[number % len(signs)]
    return short


def change(kind: str, value: str, name: str) -> str:
    """The line that gives a variable a value."""
    if kind == "int":
        return f"b{int(value) & (2**64 - 1):b} {name}"
    if kind == "truth":
        return f"{int(value == 'true')}{name}"
    return f"s{escaped(text_of(value) if kind == 'text' else value)} {name}"


def escaped(text: str) -> str:
    """A text without blanks, as viewers read it: what isn't a visible sign of ASCII is an octal escape of its bytes."""
    return "".join(chr(byte) if 33 <= byte < 127 and byte != 92 else f"\\{byte:03o}" for byte in text.encode("utf-8"))


def waves(report: Report) -> str:
    """The VCD file of a report's traces."""
    if not report.traces:
        raise NoWaves("the report has no trace: a model's 'record' lists the ports to record")
    scale = scale_of(report)
    lines = _head(report, scale)
    kinds = [kind_of_trace(trace) for trace in report.traces]
    lines += _declared(report, kinds)
    lines += ["$enddefinitions $end", "$dumpvars"]
    lines += [{"int": f"bx {name}", "truth": f"x{name}"}.get(kind, f"s {name}") for name, kind in _named(kinds)]
    lines.append("$end")
    changes = sorted(
        (time, number, value) for number, trace in enumerate(report.traces) for time, value in placed(trace, scale)
    )
    if changes and changes[-1][0] > _LARGEST_TIME:
        changes, note = _numbered(changes)
        lines.insert(1, note)
    return "\n".join(lines + _changes(changes, kinds)) + "\n"


def _numbered(changes: list[tuple[int, int, str]]) -> tuple[list[tuple[int, int, str]], str]:
    """The same changes at times that only count the tags, where 64 bits are too few."""
    times = {time: number for number, time in enumerate(sorted({time for time, _, _ in changes}))}
    note = "$comment The times of this file only count the tags of the report: the tags themselves need more than 64 bits. $end"
    return [(times[time], number, value) for time, number, value in changes], note


def _head(report: Report, scale: Scale) -> list[str]:
    return [
        "$version bin/waves of ptrun $end",
        f"$comment One tick is {scale.tick} units of this file. A token of tag time.step is at"
        f" (time * {scale.steps} + step) * {scale.places}, later tokens of one port and tag each one unit further."
        f" The run ended by: {escaped(report.end_text).replace(chr(92) + '040', ' ')} $end",
        f"$timescale {scale.unit} $end",
    ]


def _named(kinds: list[str]) -> list[tuple[str, str]]:
    """The short name and the kind of each trace's variable; its event has the next name."""
    return [(identifier(2 * number), kind) for number, kind in enumerate(kinds)]


def _declared(report: Report, kinds: list[str]) -> list[str]:
    """The variables in scopes that follow the paths of their ports."""
    lines, open_scopes = ["$scope module top $end"], []
    for number in sorted(range(len(kinds)), key=lambda number: report.traces[number].port.split(".")[:-1]):
        *scopes, port = report.traces[number].port.split(".")
        same = 0
        while same < min(len(scopes), len(open_scopes)) and scopes[same] == open_scopes[same]:
            same += 1
        lines += ["$upscope $end"] * (len(open_scopes) - same)
        lines += [f"$scope module {scope} $end" for scope in scopes[same:]]
        open_scopes = scopes
        kind, width = _TYPES.get(kinds[number], ("string", 1))
        lines.append(f"$var {kind} {width} {identifier(2 * number)} {port} $end")
        lines.append(f"$var event 1 {identifier(2 * number + 1)} {port}_comes $end")
    return lines + ["$upscope $end"] * (len(open_scopes) + 1)


def _changes(changes: list[tuple[int, int, str]], kinds: list[str]) -> list[str]:
    lines, last = [], -1
    for time, number, value in changes:
        if time != last:
            lines.append(f"#{time}")
            last = time
        lines.append(change(kinds[number], value, identifier(2 * number)))
        lines.append(f"1{identifier(2 * number + 1)}")
    # One more time, so that the last values have a width.
    return lines + [f"#{last + 1}"]
