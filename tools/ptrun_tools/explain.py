"""bin/explain: runs a model, and says in its document what ptrun's answer means."""

from __future__ import annotations

from .document import Document, NotJson, place_of
from .finding import Finding, excerpt, listed
from .library import codes
from .model import Job
from .program import Answer
from .refusal import explain_refusal
from .report import NoReport, Report, read_report
from .wiring import Wiring

_BARE = {
    "words": "The program doesn't know its words.",
    "read": "The program couldn't read its input.",
    "memory": "The program found too little memory.",
    "length": "The document has more than 16 MiB, 16,777,216 bytes.",
}


def explain(data: bytes, answer: Answer) -> Finding:
    """What this answer means for this document."""
    try:
        report = read_report(answer.text)
    except NoReport as fault:
        return Finding(f"status {answer.status}", f"The program's answer is no report: {fault}.")
    return explain_report(data, report)


def explain_report(data: bytes, report: Report) -> Finding:
    """What a report means for the document that it is of."""
    words = report.end
    if report.is_refusal and len(words) == 2:
        return Finding(report.end_text, _BARE.get(words[1], ""))
    if words[0] in _ENDS:
        return _ended(report)
    try:
        job = Job(Document(data))
    except NotJson as fault:
        return _not_json(report, fault)
    if words[0] == "fault":
        return _faulted(job, int(words[1]), words[2], words[3], report.end_text)
    if words[0] == "queue":
        return _jammed(job, report)
    code, path = int(words[1]), words[3]
    finding = explain_refusal(job, code, words[2], path)
    if code == 10:
        finding.says("These tools find no fault in the JSON.")
    return finding


def _not_json(report: Report, fault: NotJson) -> Finding:
    row = codes().get(10)
    finding = Finding(report.end_text, row.meaning if row else "")
    finding.span = (fault.position, fault.position + 1)
    return finding.says(fault.reason[0].upper() + fault.reason[1:] + ".")


def _ended(report: Report) -> Finding:
    finding = Finding(report.end_text, _ENDS[report.end[0]])
    if report.end[0] == "budget":
        finding.says("Give more firings by --budget N, up to 1,000,000,000.")
    return finding


_ENDS = {
    "stop": "The run ended past its stop time.",
    "idle": "The run ended since nothing more was due.",
    "iterations": "The run ended after its iterations.",
    "inputs": "The run ended since an input had too few tokens for one more iteration.",
    "deadlock": "The run ended since no process had anything to do.",
    "budget": "The run was cut off after its budget of firings; it isn't known whether it would have ended.",
}


def _faulted(job: Job, code: int, path: str, firing: str, title: str) -> Finding:
    row = codes().get(code)
    finding = Finding(title, f"{row.name}: {row.meaning}" if row else "")
    entity = job.entity(path) or job.innermost(path)[0]
    finding.marks = [entity.path]
    parameter = next((inner for inner in entity.parameters if inner.name == "expression"), None)
    finding.points_to(parameter.at("value") if parameter else entity.at("name"))
    what = "The top" if entity.parent is None else f"'{entity.path}', of class {entity.kind},"
    return finding.says(f"{what} is stuck in its firing number {firing}, counted from 0; the traces hold what came before.")


def _jammed(job: Job, report: Report) -> Finding:
    path = report.end[1]
    composite = job.entity(path) or job.top
    finding = Finding(report.end_text, "Full queues that are waited for can't grow, so the network can't go on.")
    finding.points_to((composite.director or composite).at("class"))
    wiring = Wiring(job)
    below = "" if composite.parent is None else composite.path + "."
    for full in report.full:
        found = wiring.place(below + full.port, full.channel)
        if not found:
            continue
        end, group = found
        senders = listed(source.path for source in group.sources)
        finding.says(f"Channel {full.channel} of {end.path} is full with {full.length:,} tokens: {senders} waits to put one more.")
        finding.others.append((end.link, f"the full channel of {end.path}"))
        finding.marks += [end.entity.path, *(source.entity.path for source in group.sources)]
    return finding.says("Raise maximumQueueCapacity, or look for the process that doesn't take its tokens.")


def rendered(name: str, data: bytes, finding: Finding) -> str:
    """The finding as text: the place as editors read it, the line of the document, and the sentences."""
    lines = []
    if finding.span is None:
        lines.append(f"{name}: {finding.title}")
    else:
        place = place_of(data, finding.span[0])
        lines.append(f"{name}:{place.line}:{place.column}: {finding.title}")
        lines += excerpt(data, finding.span, place)
    if finding.meaning:
        text = finding.meaning[0].upper() + finding.meaning[1:]
        lines.append("  " + text + ("" if text.endswith(".") else "."))
    lines += [f"  {remark.rstrip()}" for remark in finding.remarks]
    for value, word in finding.others[:12]:
        other = value.place()
        lines.append(f"{name}:{other.line}:{other.column}: {word}")
    return "\n".join(lines) + "\n"
