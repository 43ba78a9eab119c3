use crate::answer::Answer;
use crate::lists::each_plain;
use crate::numbers::{named, small};
use crate::scripts::{self, Subject, first_word, tell_child, tell_tag};
use crate::tags;
use pt_events::{DepthFault, EventQueue, are_between, depths};
use pt_time::Tag;
use std::alloc::{AllocError, Global};

/// Answers a script of calls on a queue of events, or the question for the depths of children that feed one another.
pub fn answer(alloc: Global, section: &str, question: &str, out: &mut Answer) {
    match section {
        "a queue" => scripts::run(alloc, EventQueue::new(alloc), question, out),
        "many entries" => {
            let in_order = out.or(in_order(alloc, small(question)), 0);
            out.number(alloc, i128::from(in_order));
        }
        "depths" => tell_depths(alloc, question, out),
        _ => out.no_such_section(),
    }
}

impl Subject for EventQueue {
    fn call(&mut self, alloc: Global, name: &str, rest: &str, out: &mut Answer) {
        match name {
            "put" => put(self, rest, out),
            "first" => tell_tag(alloc, self.first(), out),
            "take" => {
                let actor = self.take(tags::tag(rest));
                tell_child(alloc, actor.map(|actor| actor as usize), out);
            }
            _ => scripts::no_such_call(out),
        }
    }

    fn copied(&self, _alloc: Global) -> Result<EventQueue, AllocError> {
        self.copy()
    }
}

/// Puts an entry: `5.0 1 7` is of the actor 7 at the depth 1.
fn put(queue: &mut EventQueue, written: &str, out: &mut Answer) {
    let (at, rest) = first_word(written);
    let (depth, actor) = first_word(rest);
    out.note(queue.put(tags::tag(at), small(depth), small(actor)));
}

fn at(time: u32) -> Tag {
    Tag {
        time: u64::from(time),
        step: 0,
    }
}

/// The time of an actor among so many: seven times its number, without whole rounds.
fn time_of(actor: u32, count: u32) -> u32 {
    actor.wrapping_mul(7).checked_rem(count).unwrap_or(0)
}

/// So many entries, each of an actor at its time.
fn filled(alloc: Global, count: u32) -> Result<EventQueue, AllocError> {
    let mut queue = EventQueue::new(alloc);
    for actor in 0..count {
        queue.put(at(time_of(actor, count)), 0, actor)?;
    }
    Ok(queue)
}

/// Whether the entry of a time is the first one and the only one that is due then. It is taken.
fn is_next(queue: &mut EventQueue, time: u32, count: u32) -> bool {
    let is_first = queue.first() == Some(at(time));
    let actor = queue.take(at(time));
    let is_alone = queue.take(at(time)).is_none();
    is_first && is_alone && actor.is_some_and(|actor| time_of(actor, count) == time)
}

/// At how many times the entry of that time comes next, of so many entries.
fn in_order(alloc: Global, count: u32) -> Result<u32, AllocError> {
    let mut queue = filled(alloc, count)?;
    let mut times = 0u32;
    for time in 0..count {
        if is_next(&mut queue, time, count) {
            times = times.wrapping_add(1);
        }
    }
    Ok(times)
}

/// An edge from a child to one that it feeds: `0>1`.
fn edge(written: &str) -> (u32, u32) {
    let (from, to) = written.split_once('>').unwrap_or((written, ""));
    (small(from), small(to))
}

/// The depths of so many children, where the edges are between them: `3: 0>1 1>2`.
fn tell_depths(alloc: Global, question: &str, out: &mut Answer) {
    let (count, written) = question.split_once(':').unwrap_or((question, ""));
    let count = small(count);
    let edges = out.or(each_plain(alloc, written, " ", edge), Vec::new(alloc));
    if !are_between(count, &edges) {
        out.text("not between");
        return;
    }
    match depths(alloc, count, &edges) {
        Ok(depths) => {
            named(alloc, &depths.as_slice(), out);
            drop(depths);
        }
        Err(fault) => tell_fault(alloc, fault, out),
    }
}

fn tell_fault(alloc: Global, fault: DepthFault, out: &mut Answer) {
    match fault {
        DepthFault::Loop(children) => {
            out.text("loop");
            tell_loop(alloc, &children, out);
            drop(children);
        }
        DepthFault::Memory => out.note(Err(AllocError)),
    }
}

/// The children of a loop, the least of them first.
fn tell_loop(alloc: Global, children: &[u32], out: &mut Answer) {
    let least = children.iter().min().copied().unwrap_or(0);
    let start = children
        .iter()
        .position(|child| *child == least)
        .unwrap_or(0);
    let (last, first) = children.split_at(start);
    for child in first.iter().chain(last) {
        out.text(" ");
        out.number(alloc, i128::from(*child));
    }
}
