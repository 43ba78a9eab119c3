use crate::answer::Answer;
use crate::lists::{each, each_in};
use crate::numbers::{natural, part};
use crate::parameters::fault_named;
use crate::token_texts::read_token;
use pt_firing::{Blocked, Place, Rows};
use pt_tagged::Tagged;
use pt_time::Tag;
use pt_trace::{ChildPlace, MeetingLine, Meetings, Met, Report, RunEnd, Trace, summary, text};
use pt_value::{Text, Token};
use std::alloc::{AllocError, Global};

/// Answers the question for the text of a report, which is written in parts:
/// `trace PATH: TOKEN TOKEN; meetings PATH: FIRING WHAT, FIRING WHAT; end WORDS`. That for a summary has `firings NUMBER` too.
pub fn answer(alloc: Global, section: &str, question: &str, out: &mut Answer) {
    match section {
        "report" => tell(alloc, question, out),
        "summary" => sum_up(alloc, question, out),
        _ => out.no_such_section(),
    }
}

const START: Tag = Tag { time: 0, step: 0 };

fn tagged(alloc: Global, word: &str) -> Result<(Tag, Token), AllocError> {
    Ok((START, read_token(alloc, word)?))
}

fn trace(alloc: Global, written: &str) -> Result<Trace, AllocError> {
    let (path, data) = written.split_once(": ").unwrap_or((written, ""));
    let tokens = each(alloc, data, " ", tagged)?;
    let text = Text::of(alloc, path)?;
    let tokens = Tagged::of(alloc, tokens);
    Ok(Trace { text, tokens })
}

/// The place `CHILD.PORT.CHANNEL`.
fn place(alloc: Global, written: &str) -> Result<ChildPlace, AllocError> {
    let (port, channel) = written.rsplit_once('.').unwrap_or((written, ""));
    let (child, port) = port.rsplit_once('.').unwrap_or(("", port));
    Ok(ChildPlace {
        child: Text::of(alloc, child)?,
        port: Text::of(alloc, port)?,
        channel: natural(channel),
    })
}

fn who(alloc: Global, written: &str) -> Result<Met, AllocError> {
    let (kind, rest) = written.split_once(' ').unwrap_or((written, ""));
    match kind {
        "meet" => Ok(Met::Meet(place(alloc, rest)?)),
        "out" => Ok(Met::Out(Text::of(alloc, rest)?)),
        _ => Ok(Met::Barrier(Text::of(alloc, rest)?)),
    }
}

fn line(alloc: Global, written: &str) -> Result<MeetingLine, AllocError> {
    let (firing, what) = written.split_once(' ').unwrap_or((written, ""));
    Ok(MeetingLine {
        firing: natural(firing),
        what: who(alloc, what)?,
    })
}

fn meetings(alloc: Global, written: &str) -> Result<Meetings, AllocError> {
    let (path, rest) = written.split_once(": ").unwrap_or((written, ""));
    let lines = each(alloc, rest, ", ", line)?;
    let path = Text::of(alloc, path)?;
    Ok(Meetings { path, lines })
}

/// The end `PATH FIRING FAULT`.
fn stuck(alloc: Global, written: &str) -> Result<RunEnd, AllocError> {
    let (path, rest) = written.split_once(' ').unwrap_or((written, ""));
    let (firing, name) = rest.split_once(' ').unwrap_or((rest, ""));
    match fault_named(name) {
        Some(kind) => Ok(RunEnd::Fault(Place {
            path: Text::of(alloc, path)?,
            firing: natural(firing),
            kind,
        })),
        None => Ok(RunEnd::Idle),
    }
}

/// A channel with its length: `a.plus.0 2`.
fn row(alloc: Global, written: &str) -> Result<(Text, u64), AllocError> {
    let (channel, length) = written.split_once(' ').unwrap_or((written, ""));
    Ok((Text::of(alloc, channel)?, natural(length)))
}

/// The end `PATH CHANNEL LENGTH`.
fn full(alloc: Global, written: &str) -> Result<RunEnd, AllocError> {
    let (path, rest) = written.split_once(' ').unwrap_or((written, ""));
    let channels = Rows::of(each(alloc, rest, ", ", row)?);
    let path = Text::of(alloc, path)?;
    Ok(RunEnd::Queue(Blocked { path, channels }))
}

fn end(alloc: Global, written: &str) -> Result<RunEnd, AllocError> {
    let (kind, rest) = written.split_once(' ').unwrap_or((written, ""));
    match kind {
        "fault" => stuck(alloc, rest),
        "queue" => full(alloc, rest),
        "budget" => Ok(RunEnd::Budget(natural(rest))),
        _ => Ok(plain_end(kind)),
    }
}

fn plain_end(kind: &str) -> RunEnd {
    match kind {
        "stop" => RunEnd::Stop,
        "iterations" => RunEnd::Iterations,
        "inputs" => RunEnd::Inputs,
        "deadlock" => RunEnd::Deadlock,
        _ => RunEnd::Idle,
    }
}

fn report(alloc: Global, written: &str, out: &mut Answer) -> Report {
    let end = end(alloc, part(written, "end"));
    Report {
        traces: each_in(alloc, part(written, "trace"), " | ", trace, out),
        meetings: each_in(alloc, part(written, "meetings"), " | ", meetings, out),
        end: out.or(end, RunEnd::Idle),
    }
}

fn tell(alloc: Global, written: &str, out: &mut Answer) {
    let report = report(alloc, written, out);
    let text = text(alloc, &report);
    drop(report);
    let text = out.or(text, Vec::new(alloc));
    out.bytes_of(&text);
    drop(text);
}

fn sum_up(alloc: Global, written: &str, out: &mut Answer) {
    let report = report(alloc, written, out);
    let text = summary(alloc, &report, natural(part(written, "firings")));
    drop(report);
    let text = out.or(text, Vec::new(alloc));
    out.bytes_of(&text);
    drop(text);
}
