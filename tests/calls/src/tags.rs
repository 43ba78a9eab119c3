use crate::answer::Answer;
use crate::numbers::{natural, small};
use pt_time::{Tag, after, clamp, local, outer};
use std::alloc::Global;

/// Answers a question about tags, each written as its time and its microstep: `3.5`.
pub fn answer(alloc: Global, section: &str, question: &str, out: &mut Answer) {
    let (first, second) = question.split_once(", ").unwrap_or((question, ""));
    let from = tag(first);
    let found = match section {
        "after" => after(from, natural(second)),
        "local" => inside(from, natural(second)),
        "outer" => outer(from, natural(second)),
        "clamp" => clamp(from, tag(second)),
        _ => None,
    };
    show_any(alloc, found, out);
}

/// A tag, as its time and its microstep: `3.5`.
pub fn tag(written: &str) -> Tag {
    let (time, step) = written.split_once('.').unwrap_or((written, ""));
    Tag {
        time: natural(time),
        step: small(step),
    }
}

/// The tag within a refinement, which lags by no more than the time.
fn inside(from: Tag, lag: u64) -> Option<Tag> {
    if lag <= from.time {
        Some(local(from, lag))
    } else {
        None
    }
}

/// Writes a tag so.
pub fn show(alloc: Global, tag: Tag, out: &mut Answer) {
    out.number(alloc, i128::from(tag.time));
    out.text(".");
    out.number(alloc, i128::from(tag.step));
}

/// The same where there is a tag.
pub fn show_any(alloc: Global, tag: Option<Tag>, out: &mut Answer) {
    match tag {
        Some(tag) => show(alloc, tag, out),
        None => out.text("none"),
    }
}

/// A tag, or a dash for none.
pub fn any(written: &str) -> Option<Tag> {
    match written.trim() {
        "-" => None,
        _ => Some(tag(written)),
    }
}
