use crate::answer::Answer;
use crate::numbers::size;
use pt_firing::Place;
use pt_readback::{ReportFault, TokenFault, parse_report, read_token};
use pt_trace::{Report, RunEnd, text};
use pt_value::{Token, print};
use std::alloc::{AllocError, Global};

/// Answers what is read in printed texts. A byte may be written as a percent sign and two hexadecimal digits.
pub fn answer(alloc: Global, section: &str, question: &str, out: &mut Answer) {
    match section {
        "tokens" | "no tokens" => {
            let bytes = out.or(bytes_of(alloc, question), Vec::new(alloc));
            tell_token(alloc, &bytes, out);
            drop(bytes);
        }
        "reports" | "no reports" => {
            let bytes = out.or(bytes_of(alloc, question), Vec::new(alloc));
            tell_report(alloc, &bytes, out);
            drop(bytes);
        }
        "long texts" => tell_long(alloc, question, out),
        _ => out.no_such_section(),
    }
}

/// The bytes of a text.
fn bytes_of(alloc: Global, written: &str) -> Result<Vec<u8>, AllocError> {
    let mut parts = written.split('%');
    let mut bytes = Vec::from_slice(alloc, parts.next().unwrap_or("").as_bytes())?;
    for part in parts {
        let (digits, rest) = part.split_at_checked(2).unwrap_or((part, ""));
        bytes.push(u8::from_str_radix(digits, 16).unwrap_or(0))?;
        bytes.extend_from_slice(rest.as_bytes())?;
    }
    Ok(bytes)
}

/// What kind of token prints as the bytes.
fn tell_token(alloc: Global, bytes: &[u8], out: &mut Answer) {
    match read_token(alloc, bytes) {
        Ok(token) => {
            tell_kind(alloc, &token, out);
            tell_printed(alloc, &token, bytes, out);
            drop(token);
        }
        Err(TokenFault::Shape) => out.text("refused"),
        Err(TokenFault::Memory) => out.note(Err(AllocError)),
    }
}

fn tell_kind(alloc: Global, token: &Token, out: &mut Answer) {
    match token {
        Token::Int(_) => out.text("integer"),
        Token::Bool(_) => out.text("truth value"),
        Token::Text(text) => tell_many(alloc, "text of ", text.as_str().len(), out),
        Token::Array(items) => tell_many(alloc, "array of ", items.len(), out),
        Token::Record(fields) => tell_many(alloc, "record of ", fields.len(), out),
    }
}

fn tell_many(alloc: Global, what: &str, count: usize, out: &mut Answer) {
    out.text(what);
    out.number(alloc, count as i128);
}

/// Says where a token prints otherwise.
fn tell_printed(alloc: Global, token: &Token, bytes: &[u8], out: &mut Answer) {
    let mut printed = Vec::new(alloc);
    out.note(print(token, &mut printed));
    out.either(printed.as_slice() == bytes, "", ", printed otherwise");
    drop(printed);
}

/// What the report has that prints as the bytes.
fn tell_report(alloc: Global, bytes: &[u8], out: &mut Answer) {
    match parse_report(alloc, bytes) {
        Ok(report) => {
            tell_counts(alloc, &report, out);
            tell_end(alloc, &report.end, out);
            let printed = out.or(text(alloc, &report), Vec::new(alloc));
            out.either(printed.as_slice() == bytes, "", ", printed otherwise");
            drop(printed);
            drop(report);
        }
        Err(ReportFault::Shape) => out.text("refused"),
        Err(ReportFault::Memory) => out.note(Err(AllocError)),
    }
}

/// How many traces there are with how many tokens, and how many composites met in how many lines.
fn tell_counts(alloc: Global, report: &Report, out: &mut Answer) {
    let tokens = report.traces.iter().map(|trace| trace.tokens.len());
    let lines = report.meetings.iter().map(|meetings| meetings.lines.len());
    tell_many(alloc, "traces ", report.traces.len(), out);
    tell_many(alloc, ", tokens ", total(tokens), out);
    tell_many(alloc, ", meetings ", report.meetings.len(), out);
    tell_many(alloc, ", lines ", total(lines), out);
}

fn total<I: Iterator<Item = usize> + Drop>(counts: I) -> usize {
    counts.fold(0usize, |sum, count| sum.wrapping_add(count))
}

fn tell_end(alloc: Global, end: &RunEnd, out: &mut Answer) {
    out.text(", end ");
    match end {
        RunEnd::Stop => out.text("stop"),
        RunEnd::Idle => out.text("idle"),
        RunEnd::Iterations => out.text("iterations"),
        RunEnd::Inputs => out.text("inputs"),
        RunEnd::Deadlock => out.text("deadlock"),
        RunEnd::Fault(place) => tell_place(alloc, place, out),
        RunEnd::Budget(firings) => {
            out.text("budget ");
            out.number(alloc, i128::from(*firings));
        }
        RunEnd::Queue(blocked) => {
            out.text("queue of ");
            out.text(blocked.path.as_str());
            tell_many(alloc, " with ", blocked.channels.as_slice().len(), out);
        }
    }
}

fn tell_place(alloc: Global, place: &Place, out: &mut Answer) {
    out.text("fault ");
    out.number(alloc, i128::from(place.kind.code()));
    out.text(" of ");
    out.text(place.path.as_str());
    out.text(" in ");
    out.number(alloc, i128::from(place.firing));
}

/// What is read in a long text, which is so long: `digits 1000`, `lines 1000`, `items 1000` or `nested 1000`.
fn tell_long(alloc: Global, question: &str, out: &mut Answer) {
    let (kind, written) = question.split_once(' ').unwrap_or((question, ""));
    let count = size(written);
    let text = match kind {
        "lines" => lines(alloc, count),
        "items" => items(alloc, count),
        "nested" => nested(alloc, count),
        _ => vec![in alloc; b'1'; count],
    };
    let text = out.or(text, Vec::new(alloc));
    match kind {
        "items" | "nested" => tell_token(alloc, &text, out),
        _ => tell_report(alloc, &text, out),
    }
    drop(text);
}

/// A report of so many lines before its last: its first token is 1, and each is one more than the one before it.
fn lines(alloc: Global, count: usize) -> Result<Vec<u8>, AllocError> {
    let mut text = Vec::from_slice(alloc, b"trace a.output\n")?;
    for number in 1..count {
        let line = format!(in alloc; "{} 0.0 {number}\n", number.wrapping_sub(1))?;
        text.extend_from_slice(line.as_bytes())?;
        drop(line);
    }
    text.extend_from_slice(b"end stop\n")?;
    Ok(text)
}

/// An array of so many integers.
fn items(alloc: Global, count: usize) -> Result<Vec<u8>, AllocError> {
    let mut text = Vec::from_slice(alloc, b"{")?;
    for number in 0..count {
        text.extend_from_slice(if number > 0 { b", 7" } else { b"7" })?;
    }
    text.push(b'}')?;
    Ok(text)
}

/// So many arrays within one another, the innermost without items.
fn nested(alloc: Global, count: usize) -> Result<Vec<u8>, AllocError> {
    let mut text = vec![in alloc; b'{'; count]?;
    for _ in 0..count {
        text.push(b'}')?;
    }
    Ok(text)
}
