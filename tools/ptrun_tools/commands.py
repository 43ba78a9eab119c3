"""The command lines of the tools: what they read and write, and how they end.

Each ends with 0 where it did what it was asked for, and with 2 and a line on standard error where it couldn't.
bin/explain ends with 1 where it explained a refusal, a fault, a jam or a spent budget.
"""

from __future__ import annotations

import argparse
import sys
from pathlib import Path
from typing import Callable, Iterable

from . import drawing, explain, page, picture, program, waves
from .document import Document, NotJson, place_of
from .model import Job
from .report import NoReport, Report, read_report

# Trees of expressions and lists in values are walked by recursion; ptrun's limits keep them below this.
_DEPTH_OF_CALLS = 10_000


class Failure(Exception):
    """What was asked for can't be done: the line to say so."""


def _run(name: str, action: Callable[[argparse.Namespace], int], parser: argparse.ArgumentParser) -> int:
    sys.setrecursionlimit(_DEPTH_OF_CALLS)
    options = parser.parse_args()
    try:
        return action(options)
    except (Failure, program.NoProgram, picture.NoLayout, waves.NoWaves) as failure:
        print(f"{name}: {failure}", file=sys.stderr)
        return 2
    except BrokenPipeError:
        # Whoever reads the output has seen enough.
        sys.stderr.close()
        return 2


def _parser(text: str) -> argparse.ArgumentParser:
    return argparse.ArgumentParser(description=text, formatter_class=argparse.RawDescriptionHelpFormatter)


def _bytes(path: str) -> bytes:
    try:
        return sys.stdin.buffer.read() if path == "-" else Path(path).read_bytes()
    except OSError as error:
        raise Failure(f"{path} can't be read: {error.strerror}") from None


def _job(path: str) -> Job:
    data = _bytes(path)
    try:
        return Job(Document(data))
    except NotJson as fault:
        place = place_of(data, fault.position)
        raise Failure(f"{path}:{place.line}:{place.column}: {fault.reason}") from None


def _report(path: str) -> Report:
    try:
        return read_report(_bytes(path))
    except NoReport as fault:
        raise Failure(f"{path} is no report of ptrun: {fault}") from None


def _write(text: str, path: str | None) -> None:
    if path is None or path == "-":
        sys.stdout.buffer.write(text.encode("utf-8"))
        sys.stdout.buffer.flush()
        return
    try:
        Path(path).write_bytes(text.encode("utf-8"))
    except OSError as error:
        raise Failure(f"{path} can't be written: {error.strerror}") from None


def _note(name: str, notes: Iterable[str], ending: str = "") -> None:
    """Says on standard error what was left out."""
    for note in notes:
        print(f"{name}: {note}{ending}", file=sys.stderr)


def _counts(text: str) -> int:
    number = int(text)
    if number < 0:
        raise argparse.ArgumentTypeError("a number from 0 is wanted")
    return number


def _add_model(parser: argparse.ArgumentParser) -> None:
    parser.add_argument("model", metavar="MODEL.json", help="the document, or - for standard input")


def _add_output(parser: argparse.ArgumentParser) -> None:
    parser.add_argument("-o", "--output", metavar="FILE", help="where to write (standard output)")


def _add_limits(parser: argparse.ArgumentParser) -> None:
    """The options of what draws a model."""
    words = "draw this many boxes at most (%(default)s)"
    parser.add_argument("--limit", metavar="N", type=_counts, default=drawing.DEFAULT_LIMIT, help=words)
    parser.add_argument("--seconds", metavar="S", type=float, default=60, help="give Graphviz this many seconds (60)")


def explain_main() -> int:
    parser = _parser(
        "Run a model, and say what ptrun's answer means at its place in the document.\n\n"
        "The first line is MODEL:LINE:COLUMN: ANSWER, as editors and compilers have it. The exit status is 0 where the run\n"
        "ended by itself, 1 where a refusal, a fault, a jam or a spent budget is explained, and 2 where nothing could be run."
    )
    _add_model(parser)
    parser.add_argument("--program", metavar="PATH", help="the program; else the variable PTRUN, else crates/ptrun/out/ptrun")
    parser.add_argument("--report", metavar="REPORT", help="explain this report of the model, and run nothing")
    parser.add_argument("--budget", metavar="N", help="run with this budget of firings")
    parser.add_argument("--seconds", metavar="S", type=float, default=600, help="give the run this many seconds (600)")
    return _run("explain", _explain, parser)


def _explain(options: argparse.Namespace) -> int:
    data = _bytes(options.model)
    if options.report:
        answer = program.Answer(0, _bytes(options.report))
    else:
        answer = program.run(program.find_program(options.program), data, options.budget, options.seconds)
    finding = explain.explain(data, answer)
    _write(explain.rendered(options.model, data, finding), None)
    return 1 if finding.is_trouble else 0


def draw_main() -> int:
    parser = _parser(
        "Draw a model as SVG: composites in one another, actors, ports, relations, and the charts of modal models.\n\n"
        "Graphviz lays the drawing out. Where it isn't installed the DOT text is written, and a line on standard error says so."
    )
    _add_model(parser)
    _add_output(parser)
    parser.add_argument("--dot", action="store_true", help="write the DOT text")
    parser.add_argument("--depth", metavar="N", type=_counts, help="open composites to this depth alone, the top being 0")
    _add_limits(parser)
    return _run("draw", _draw, parser)


def _draw(options: argparse.Namespace) -> int:
    job = _job(options.model)
    made = drawing.draw(job, options.depth, max(1, options.limit))
    _note("draw", made.notes, " (--depth, --limit)")
    text = made.dot
    if not options.dot:
        try:
            text = picture.svg_of(made, options.seconds)
        except picture.NoGraphviz:
            print("draw: Graphviz isn't installed, so this is the DOT text", file=sys.stderr)
    _write(text, options.output)
    return 0


def waves_main() -> int:
    parser = _parser(
        "Turn the traces of a report into a VCD file for waveform viewers.\n\n"
        "One tick is shown as one second; microsteps, and the tokens of one port at one tag, are fractions of it."
    )
    parser.add_argument("report", metavar="REPORT", help="what ptrun run wrote, or - for standard input")
    _add_output(parser)
    return _run("waves", _waves, parser)


def _waves(options: argparse.Namespace) -> int:
    report = _report(options.report)
    if report.is_refusal:
        raise Failure(f"{options.report} is a refusal and has no traces: {report.end_text}")
    _write(waves.waves(report), options.output)
    if any(meetings.made for meetings in report.meetings):
        print("waves: meetings have no tag and are left out; bin/page shows them", file=sys.stderr)
    return 0


def page_main() -> int:
    parser = _parser(
        "Show a model and its report as one HTML page: the drawing, each trace as a plot, meetings as a sequence chart,\n"
        "and a refusal, a fault or a jam marked in the drawing. The page needs nothing but a browser."
    )
    _add_model(parser)
    parser.add_argument("report", metavar="REPORT", help="what ptrun run wrote for it, or - for standard input")
    _add_output(parser)
    words = "show this many tokens of each trace at most (%(default)s)"
    parser.add_argument("--tokens", metavar="N", type=_counts, default=page.DEFAULT_TOKENS, help=words)
    _add_limits(parser)
    return _run("page", _page, parser)


def _page(options: argparse.Namespace) -> int:
    if options.model == options.report == "-":
        raise Failure("standard input can be the model or the report, not both")
    data, report = _bytes(options.model), _report(options.report)
    name = "standard input" if options.model == "-" else options.model
    made = page.page(name, data, report, page.Options(options.tokens, max(1, options.limit), options.seconds))
    _note("page", made.notes)
    _write(made.html, options.output)
    return 0
