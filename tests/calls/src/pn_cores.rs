use crate::answer::Answer;
use crate::cores::{Asked, begin, copied, finish, show_lent, tell_asked};
use crate::library::place;
use crate::lists::{each, each_in, each_plain};
use crate::numbers::{part, size};
use crate::plans::source;
use crate::scripts::{self, Subject};
use crate::tags;
use pt_firing::{Ask, Counts, Need, Outputs, Tokens};
use pt_pn::Core;
use pt_process::CorePlan;
use std::alloc::{AllocError, Global};

/// Answers a script of calls on a core of PN, behind the network that it is made of.
pub fn answer(alloc: Global, section: &str, question: &str, out: &mut Answer) {
    match section {
        "firings" => {
            let (written, script) = scripts::parts(question, out);
            run(alloc, written, script, out);
        }
        _ => out.no_such_section(),
    }
}

fn run(alloc: Global, written: &str, script: &str, out: &mut Answer) {
    match Core::new(alloc, plan(alloc, written, out)) {
        Ok(core) => scripts::run(alloc, Asked { core, child: 0 }, script, out),
        Err(fault) => out.note(Err(fault)),
    }
}

/// Some counts in a row.
pub fn counts(alloc: Global, written: &str, between: &str) -> Result<Counts, AllocError> {
    Ok(Counts::of(each_plain(alloc, written, between, size)?))
}

/// A need: `1+2` at its places, `.` where there is none, and `-` where the process is over.
pub fn need(alloc: Global, word: &str) -> Result<Option<Counts>, AllocError> {
    match word.trim() {
        "-" => Ok(None),
        "." => Ok(Some(Counts::of(Vec::new(alloc)))),
        counted => Ok(Some(counts(alloc, counted, "+")?)),
    }
}

/// The first tokens of each channel; none where nothing is said.
fn first(alloc: Global, written: &str, channels: usize, out: &mut Answer) -> Vec<Tokens> {
    let mut lists = each_in(alloc, written, "/", place, out);
    for _ in lists.len()..channels {
        if lists.push(Tokens::new()).is_err() {
            out.note(Err(AllocError));
        }
    }
    lists
}

fn plan(alloc: Global, written: &str, out: &mut Answer) -> CorePlan {
    let sources = each_plain(alloc, part(written, "sources"), " ", source);
    let sources = out.or(sources, Vec::new(alloc));
    let (initial, maximum) = part(written, "capacities")
        .split_once(' ')
        .unwrap_or(("1", "1"));
    CorePlan {
        first: first(alloc, part(written, "first"), sources.len(), out),
        sources,
        places: out.or(
            counts(alloc, part(written, "places"), " "),
            Counts::of(Vec::new(alloc)),
        ),
        takes: out.or(
            counts(alloc, part(written, "takes"), " "),
            Counts::of(Vec::new(alloc)),
        ),
        initial: size(initial),
        maximum: size(maximum),
        starts: out.or(
            each(alloc, part(written, "starts"), " ", need),
            Vec::new(alloc),
        ),
    }
}

impl Subject for Asked<Core> {
    fn call(&mut self, alloc: Global, name: &str, rest: &str, out: &mut Answer) {
        match name {
            "begin" => begin(alloc, &mut self.core, tags::tag("0.0"), rest, out),
            "ask" => ask(alloc, self, out),
            "told" => told(alloc, self, rest, out),
            "finish" => finish(alloc, &mut self.core, out),
            "blocked" => blocked(alloc, &self.core, out),
            "reset" => out.note(self.core.reset(alloc)),
            _ => scripts::no_such_call(out),
        }
    }

    fn copied(&self, alloc: Global) -> Result<Asked<Core>, AllocError> {
        copied(alloc, self)
    }
}

fn ask(alloc: Global, asked: &mut Asked<Core>, out: &mut Answer) {
    match asked.core.ask() {
        Ask::Fire(process, _) => {
            asked.child = process;
            tell_asked(alloc, " = fire ", process, out);
            show_lent(&asked.core, out);
        }
        Ask::Get(process) => tell_asked(alloc, " = get ", process, out),
        Ask::Put(process) => tell_asked(alloc, " = put ", process, out),
        Ask::Grow => out.text(" = grow"),
        Ask::Finished => out.text(" = finished"),
        Ask::Full => out.text(" = full"),
        _ => out.text(" = other"),
    }
}

/// What the process gave that was asked, and its need then: `5 7/- needs 1+1`.
fn told(alloc: Global, asked: &mut Asked<Core>, written: &str, out: &mut Answer) {
    let (given, needed) = written.split_once("needs ").unwrap_or((written, "-"));
    let outputs = Outputs::of(each_in(alloc, given, "/", place, out));
    let needed = out.or(need(alloc, needed), None);
    let need = match &needed {
        Some(counts) => Need::All(counts),
        None => Need::Over,
    };
    out.note(asked.core.told(alloc, asked.child, outputs, need));
    drop(needed);
}

/// The channels that are waited for, each with its length.
fn blocked(alloc: Global, core: &Core, out: &mut Answer) {
    out.text(" =");
    let full = out.or(core.blocked(alloc), Vec::new(alloc));
    for (channel, length) in &full {
        tell_asked(alloc, " ", *channel, out);
        out.text(":");
        out.number(alloc, *length as i128);
    }
    drop(full);
}
