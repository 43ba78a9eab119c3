//! Scripts: calls in their order, each with its answer behind `=` where it gives one.

use crate::answer::Answer;
use crate::tags;
use crate::token_texts::show;
use pt_time::Tag;
use pt_value::Token;
use std::alloc::{AllocError, Global};
use std::mem;

/// What the calls of a script are made on.
pub trait Subject: Sized {
    /// Makes a call, by its name and what stands behind it, and writes its answer, if it gives one.
    fn call(&mut self, alloc: Global, name: &str, rest: &str, out: &mut Answer);

    /// Another in the same state.
    fn copied(&self, alloc: Global) -> Result<Self, AllocError>;
}

/// What the calls are made on, and a copy of it that was kept.
#[derive(Drop)]
struct Held<S> {
    now: S,
    kept: Option<S>,
}

/// What stands before the bar of a question, which is written again, and the script behind the bar.
pub fn parts<'q>(question: &'q str, out: &mut Answer) -> (&'q str, &'q str) {
    let (written, script) = question.split_once(" | ").unwrap_or((question, ""));
    out.text(written);
    out.text(" | ");
    (written, script)
}

/// The name of a call, and what stands behind it.
pub fn first_word(call: &str) -> (&str, &str) {
    call.split_once(' ').unwrap_or((call, ""))
}

/// Makes the calls of a script, and writes it again with the answers that they give. `copy` goes on with a copy, `keep` keeps
/// one, and `swap` goes on with the one that was kept and keeps the other.
pub fn run<S: Subject + Drop>(alloc: Global, subject: S, script: &str, out: &mut Answer) {
    let mut held = Held {
        now: subject,
        kept: None,
    };
    for (number, part) in script.split(", ").enumerate() {
        let (call, _) = part.split_once(" = ").unwrap_or((part, ""));
        if number > 0 {
            out.text(", ");
        }
        out.text(call);
        act(alloc, &mut held, call, out);
    }
}

fn act<S: Subject + Drop>(alloc: Global, held: &mut Held<S>, call: &str, out: &mut Answer) {
    let (name, rest) = first_word(call);
    match name {
        "copy" => copy(alloc, held, out),
        "keep" => keep(alloc, held, out),
        "swap" => swap(held),
        _ => held.now.call(alloc, name, rest, out),
    }
}

fn copy<S: Subject + Drop>(alloc: Global, held: &mut Held<S>, out: &mut Answer) {
    match held.now.copied(alloc) {
        Ok(copy) => held.now = copy,
        Err(fault) => out.note(Err(fault)),
    }
}

fn keep<S: Subject + Drop>(alloc: Global, held: &mut Held<S>, out: &mut Answer) {
    match held.now.copied(alloc) {
        Ok(copy) => held.kept = Some(copy),
        Err(fault) => out.note(Err(fault)),
    }
}

fn swap<S: Subject + Drop>(held: &mut Held<S>) {
    if let Some(kept) = held.kept.take() {
        held.kept = Some(mem::replace(&mut held.now, kept));
    }
}

pub fn no_such_call(out: &mut Answer) {
    out.text(" = no such call");
}

pub fn tell_whether(answer: bool, out: &mut Answer) {
    out.either(answer, " = yes", " = no");
}

pub fn tell_count(alloc: Global, count: usize, out: &mut Answer) {
    out.text(" = ");
    out.number(alloc, count as i128);
}

/// A child's number, if there is one.
pub fn tell_child(alloc: Global, child: Option<usize>, out: &mut Answer) {
    match child {
        Some(child) => tell_count(alloc, child, out),
        None => out.text(" = none"),
    }
}

/// A tag, if there is one.
pub fn tell_tag(alloc: Global, tag: Option<Tag>, out: &mut Answer) {
    out.text(" = ");
    tags::show_any(alloc, tag, out);
}

pub fn tell_tokens(tokens: &[Token], out: &mut Answer) {
    out.text(" = ");
    show(tokens, out);
}
