use crate::answer::Answer;
use crate::cores::{Asked, begin, copied, finish, show_lent, tell_asked};
use crate::library::place;
use crate::lists::{each, each_in, each_plain};
use crate::numbers::part;
use crate::plans::source;
use crate::pn_cores::{self, counts};
use crate::scripts::{self, Subject};
use crate::tags;
use pt_firing::{Ask, Counts, Meeting, Need, Outputs};
use pt_puts::KeptNeed;
use pt_rv::Core;
use pt_rv_plan::CorePlan;
use std::alloc::{AllocError, Global};

/// Answers a script of calls on a core of Rendezvous, behind the net that it is made of.
pub fn answer(alloc: Global, section: &str, question: &str, out: &mut Answer) {
    match section {
        "firings" => {
            let (written, script) = scripts::parts(question, out);
            run(alloc, written, script, out);
        }
        _ => out.no_such_section(),
    }
}

fn run(alloc: Global, written: &str, script: &str, out: &mut Answer) {
    match Core::new(alloc, plan(alloc, written, out)) {
        Ok(core) => scripts::run(alloc, Asked { core, child: 0 }, script, out),
        Err(fault) => out.note(Err(fault)),
    }
}

/// A need that a script tells.
#[derive(Drop)]
enum Needed {
    Over,
    Counts(Counts),
    Any,
}

/// A need as under PN, or `any` where a token at any place will do.
fn needed(alloc: Global, word: &str) -> Result<Needed, AllocError> {
    if word.trim() == "any" {
        return Ok(Needed::Any);
    }
    match pn_cores::need(alloc, word)? {
        Some(counts) => Ok(Needed::Counts(counts)),
        None => Ok(Needed::Over),
    }
}

/// The same as a plan has it.
fn need(alloc: Global, word: &str) -> Result<KeptNeed, AllocError> {
    match needed(alloc, word)? {
        Needed::Over => Ok(KeptNeed::Over),
        Needed::Counts(counts) => Ok(KeptNeed::Counts(counts)),
        Needed::Any => Ok(KeptNeed::Any),
    }
}

fn plan(alloc: Global, written: &str, out: &mut Answer) -> CorePlan {
    CorePlan {
        sources: out.or(
            each_plain(alloc, part(written, "sources"), " ", source),
            Vec::new(alloc),
        ),
        places: out.or(
            counts(alloc, part(written, "places"), " "),
            Counts::of(Vec::new(alloc)),
        ),
        barriers: out.or(
            each_plain(alloc, part(written, "barriers"), " ", |word| word == "yes"),
            Vec::new(alloc),
        ),
        takes: out.or(
            counts(alloc, part(written, "takes"), " "),
            Counts::of(Vec::new(alloc)),
        ),
        starts: out.or(
            each(alloc, part(written, "starts"), " ", need),
            Vec::new(alloc),
        ),
    }
}

impl Subject for Asked<Core> {
    fn call(&mut self, alloc: Global, name: &str, rest: &str, out: &mut Answer) {
        match name {
            "begin" => begin(alloc, &mut self.core, tags::tag("0.0"), rest, out),
            "ask" => ask(alloc, self, out),
            "told" => told(alloc, self, rest, out),
            "met" => met(alloc, &self.core, out),
            "finish" => finish(alloc, &mut self.core, out),
            "reset" => out.note(self.core.reset(alloc)),
            _ => scripts::no_such_call(out),
        }
    }

    fn copied(&self, alloc: Global) -> Result<Asked<Core>, AllocError> {
        copied(alloc, self)
    }
}

fn ask(alloc: Global, asked: &mut Asked<Core>, out: &mut Answer) {
    match asked.core.ask() {
        Ask::Fire(process, _) => {
            asked.child = process;
            tell_asked(alloc, " = fire ", process, out);
            show_lent(&asked.core, out);
        }
        Ask::Meet(meeting) => {
            out.text(" =");
            show_meeting(alloc, meeting, out);
        }
        Ask::Finished => out.text(" = finished"),
        _ => out.text(" = other"),
    }
}

fn show_meeting(alloc: Global, meeting: Meeting, out: &mut Answer) {
    match meeting {
        Meeting::Channel(channel) => tell_asked(alloc, " meet ", channel, out),
        Meeting::Barrier(process) => tell_asked(alloc, " barrier ", process, out),
    }
}

/// What the process gave that was asked, and its need then: `5 7/- needs 1+1`.
fn told(alloc: Global, asked: &mut Asked<Core>, written: &str, out: &mut Answer) {
    let (given, written) = written.split_once("needs ").unwrap_or((written, "-"));
    let outputs = Outputs::of(each_in(alloc, given, "/", place, out));
    let kept = out.or(needed(alloc, written), Needed::Over);
    let need = match &kept {
        Needed::Over => Need::Over,
        Needed::Counts(counts) => Need::All(counts),
        Needed::Any => Need::Any,
    };
    out.note(asked.core.told(alloc, asked.child, outputs, need));
    drop(kept);
}

/// The meetings of the firing.
fn met(alloc: Global, core: &Core, out: &mut Answer) {
    out.text(" =");
    for meeting in core.met() {
        show_meeting(alloc, *meeting, out);
    }
}
