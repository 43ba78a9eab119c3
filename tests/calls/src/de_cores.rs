use crate::answer::Answer;
use crate::cores::{Asked, begin, copied, finish, show_lent, tell_asked};
use crate::de_plans::inside;
use crate::firing::{no_places, tell_places};
use crate::library::{place, state};
use crate::lists::each_in;
use crate::scripts::{self, Subject};
use crate::tags;
use pt_core::Core;
use pt_de::DeCore;
use pt_de_plan::plan;
use pt_firing::{Ask, Need, Outputs, Partial};
use std::alloc::{AllocError, Global};

/// Answers a script of calls on a core of DE, behind the inside that it is made of.
pub fn answer(alloc: Global, section: &str, question: &str, out: &mut Answer) {
    match section {
        "reactions" => {
            let (written, script) = scripts::parts(question, out);
            run(alloc, written, script, out);
        }
        _ => out.no_such_section(),
    }
}

fn run(alloc: Global, written: &str, script: &str, out: &mut Answer) {
    let inside = inside(alloc, written, out);
    match plan(alloc, inside) {
        Ok(plan) => match DeCore::new(alloc, plan) {
            Ok(core) => scripts::run(alloc, Asked { core, child: 0 }, script, out),
            Err(fault) => out.note(Err(fault)),
        },
        Err(fault) => {
            drop(fault);
            out.text("no plan");
        }
    }
}

impl Subject for Asked<DeCore> {
    fn call(&mut self, alloc: Global, name: &str, rest: &str, out: &mut Answer) {
        match name {
            "begin" => begin_at(alloc, &mut self.core, rest, out),
            "ask" => ask(alloc, self, out),
            "told" => told(alloc, self, rest, out),
            "hears" => hears(alloc, self, rest, out),
            "has_room" => scripts::tell_whether(self.core.has_room(self.child), out),
            "told_signal" => told_signal(self, rest),
            "hears_signal" => self.core.hears_signal(self.child, signal(rest)),
            "finish" => finish(alloc, &mut self.core, out),
            "next" => next(alloc, &self.core, out),
            "reset" => out.note(self.core.reset(alloc)),
            _ => scripts::no_such_call(out),
        }
    }

    fn copied(&self, alloc: Global) -> Result<Asked<DeCore>, AllocError> {
        copied(alloc, self)
    }
}

/// Begins at a tag, on the tokens of the own inputs: `3.1 4 5/-`.
fn begin_at(alloc: Global, core: &mut DeCore, written: &str, out: &mut Answer) {
    let (at, inputs) = scripts::first_word(written);
    begin(alloc, core, tags::tag(at), inputs, out);
}

fn ask(alloc: Global, asked: &mut Asked<DeCore>, out: &mut Answer) {
    match asked.core.ask() {
        Ask::Fire(child, tag) => {
            asked.child = child;
            tell_asked(alloc, " = fire ", child, out);
            out.text(" at ");
            tags::show(alloc, tag, out);
            asked.core.hand();
            show_lent(&asked.core, out);
        }
        Ask::Early(child, tag) => {
            asked.child = child;
            tell_asked(alloc, " = early ", child, out);
            out.text(" at ");
            tags::show(alloc, tag, out);
            out.text(": ");
            let known = out.or(asked.core.partial(alloc), no_places(alloc));
            tell_places(alloc, known, out);
        }
        Ask::Finished => out.text(" = finished"),
        _ => out.text(" = other"),
    }
}

/// What the child gave that was asked, and its wake, if it has one: `5 7/- until 3.0`.
fn told(alloc: Global, asked: &mut Asked<DeCore>, written: &str, out: &mut Answer) {
    let (given, wake) = match written.split_once("until ") {
        Some((given, at)) => (given, Some(tags::tag(at))),
        None => (written, None),
    };
    let lists = each_in(alloc, given, "/", place, out);
    let outputs = Outputs::of(lists);
    out.note(
        asked
            .core
            .told(alloc, asked.child, outputs, wake, Need::Any),
    );
}

/// What that child gave early: `5/?`.
fn hears(alloc: Global, asked: &mut Asked<DeCore>, written: &str, out: &mut Answer) {
    let early = Partial::of(each_in(alloc, written, "/", state, out));
    out.note(asked.core.hears(alloc, asked.child, &early));
    drop(early);
}

/// The integer that the child gave that was asked, if any, and its wake, if it has one: `5 until 3.0`.
fn told_signal(asked: &mut Asked<DeCore>, written: &str) {
    let (given, wake) = match written.split_once("until ") {
        Some((given, at)) => (given, Some(tags::tag(at))),
        None => (written, None),
    };
    asked.core.told_signal(asked.child, signal(given), wake);
}

/// An integer, or none.
fn signal(written: &str) -> Option<i64> {
    written.trim().parse::<i64>().ok()
}

fn next(alloc: Global, core: &DeCore, out: &mut Answer) {
    out.text(" = ");
    match core.next() {
        Some(tag) => tags::show(alloc, tag, out),
        None => out.text("never"),
    }
}
