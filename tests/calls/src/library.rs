// Firings of library actors, of whichever library: these functions see an actor by its trait alone.

use crate::answer::Answer;
use crate::firing::{no_places, tell_places};
use crate::lists::each_in;
use crate::numbers::part;
use crate::parameters::{ports, values};
use crate::tags;
use crate::token_texts::{read_tokens, show_ports};
use pt_firing::{Actor, Fires, Inputs, Partial, Step, Tokens, TriState};
use pt_flow_base::{Params, PortTypes};
use pt_time::Tag;
use pt_value::Text;
use std::alloc::{AllocError, Global};

const START: Tag = Tag { time: 0, step: 0 };

/// What an actor is started from: `class C; values NAME TOKEN, ..; ports NAME CHANNELS, ..`.
pub fn params(alloc: Global, written: &str, out: &mut Answer) -> Result<Params, AllocError> {
    let class = Text::of(alloc, part(written, "class"))?;
    Ok(Params {
        class,
        values: values(alloc, part(written, "values"), out),
        ports: ports(alloc, part(written, "ports"), out),
        types: PortTypes::of(Vec::new(alloc)),
        tree: None,
    })
}

/// The tokens of a place; `-` is none.
pub fn place(alloc: Global, written: &str) -> Result<Tokens, AllocError> {
    read_tokens(alloc, if written.trim() == "-" { "" } else { written })
}

/// What is known of a place; `?` is nothing.
pub fn state(alloc: Global, written: &str) -> Result<TriState, AllocError> {
    match written.trim() {
        "?" => Ok(TriState::Unknown),
        _ => Ok(TriState::known(place(alloc, written)?)),
    }
}

/// What a step gave, or the number of the fault at which it is stuck.
fn show(alloc: Global, step: &Step, out: &mut Answer) {
    match step {
        Step::Done(outputs) => show_ports(outputs, out),
        Step::Fault(fault) => {
            out.text("stuck by ");
            out.number(alloc, i128::from(fault.code()));
            out.text(" |");
        }
        Step::Memory => out.note(Err(AllocError)),
    }
}

/// Fires an actor at a tag on the tokens of its places, between slashes.
fn fire_at<A: Fires>(alloc: Global, actor: &mut A, tag: Tag, written: &str, out: &mut Answer) {
    let places = each_in(alloc, written, "/", place, out);
    let step = actor.step(alloc, tag, &Inputs::of(&places));
    drop(places);
    show(alloc, &step, out);
    drop(step);
}

fn fire<A: Fires>(alloc: Global, actor: &mut A, written: &str, out: &mut Answer) {
    fire_at(alloc, actor, START, written, out);
}

/// Fires an actor tick by tick.
fn fire_all<A: Fires>(alloc: Global, actor: &mut A, ticks: &str, out: &mut Answer) {
    if !ticks.is_empty() {
        for written in ticks.split(", ") {
            fire(alloc, actor, written, out);
        }
    }
}

/// Fires an actor at one tag after the other: `3.1: 4 5 / -, 4.0: - / 1`.
fn fire_in_time<A: Fires>(alloc: Global, actor: &mut A, firings: &str, out: &mut Answer) {
    if !firings.is_empty() {
        for firing in firings.split(", ") {
            let (at, written) = firing.split_once(":").unwrap_or((firing, ""));
            fire_at(alloc, actor, tags::tag(at), written, out);
        }
    }
}

/// A copy of an actor in its place, or the actor itself where memory is wanting.
fn copied<A: Fires + Drop>(alloc: Global, actor: A, out: &mut Answer) -> A {
    let copy = actor.copy(alloc);
    out.or(copy, actor)
}

/// What a copy of an actor gives at a firing.
pub fn copy_fires<A: Fires + Drop>(alloc: Global, actor: A, written: &str, out: &mut Answer) {
    let mut copy = copied(alloc, actor, out);
    fire(alloc, &mut copy, written, out);
}

/// What a copy of an actor gives tick by tick.
pub fn copy_ticks<A: Fires + Drop>(alloc: Global, actor: A, ticks: &str, out: &mut Answer) {
    let mut copy = copied(alloc, actor, out);
    fire_all(alloc, &mut copy, ticks, out);
}

/// What a copy of an actor gives at one tag after the other.
pub fn copy_fires_in_time<A: Fires + Drop>(
    alloc: Global,
    actor: A,
    firings: &str,
    out: &mut Answer,
) {
    let mut copy = copied(alloc, actor, out);
    fire_in_time(alloc, &mut copy, firings, out);
}

/// When a copy of an actor wakes after some firings.
pub fn copy_wakes<A: Actor + Drop>(alloc: Global, mut actor: A, firings: &str, out: &mut Answer) {
    fire_in_time(alloc, &mut actor, firings, out);
    let copy = copied(alloc, actor, out);
    let wake = copy.next();
    drop(copy);
    match wake {
        Some(tag) => {
            out.text("at ");
            tags::show(alloc, tag, out);
        }
        None => out.text("never"),
    }
}

/// What an actor lets be known of its outputs at a tag, where this is known of its places.
fn early_at<A: Actor>(
    alloc: Global,
    actor: &A,
    tag: Tag,
    known: &Partial,
    out: &mut Answer,
) -> Partial {
    out.or(actor.early(alloc, tag, known), no_places(alloc))
}

/// The same at the start.
pub fn early<A: Actor>(alloc: Global, actor: &A, known: &Partial, out: &mut Answer) -> Partial {
    early_at(alloc, actor, START, known, out)
}

/// What a copy of an actor lets be known at a tag.
fn lets_know<A: Actor + Drop>(alloc: Global, actor: A, tag: Tag, written: &str, out: &mut Answer) {
    let copy = copied(alloc, actor, out);
    let known = Partial::of(each_in(alloc, part(written, "known"), "/", state, out));
    let told = early_at(alloc, &copy, tag, &known, out);
    drop(known);
    drop(copy);
    tell_places(alloc, told, out);
}

/// What a copy of an actor lets be known after some ticks.
pub fn copy_lets_know<A: Actor + Drop>(
    alloc: Global,
    mut actor: A,
    written: &str,
    out: &mut Answer,
) {
    fire_all(alloc, &mut actor, part(written, "ticks"), out);
    lets_know(alloc, actor, START, written, out);
}

/// What a copy of an actor lets be known at a tag after some firings.
pub fn copy_lets_know_at<A: Actor + Drop>(
    alloc: Global,
    mut actor: A,
    written: &str,
    out: &mut Answer,
) {
    fire_in_time(alloc, &mut actor, part(written, "firings"), out);
    lets_know(alloc, actor, tags::tag(part(written, "at")), written, out);
}
