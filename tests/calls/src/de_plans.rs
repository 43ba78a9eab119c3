use crate::answer::Answer;
use crate::lists::each_plain;
use crate::numbers::{named, part, size, small};
use crate::plans::source;
use crate::tags;
use pt_de_plan::{DeInside, plan};
use pt_events::DepthFault;
use pt_firing::Counts;
use pt_time::Tag;
use std::alloc::{AllocError, Global};

/// Answers the question for the depths of an inside, which is written by its lists.
pub fn answer(alloc: Global, section: &str, question: &str, out: &mut Answer) {
    match section {
        "depths" => {
            let inside = inside(alloc, question, out);
            tell(alloc, inside, out);
        }
        _ => out.no_such_section(),
    }
}

fn read_counts(alloc: Global, written: &str) -> Result<Counts, AllocError> {
    Ok(Counts::of(each_plain(alloc, written, " ", size)?))
}

/// A mark for yes, and anything else for no.
fn is_yes(word: &str) -> bool {
    word == "x"
}

fn flags(alloc: Global, written: &str, out: &mut Answer) -> Vec<bool> {
    out.or(each_plain(alloc, written, " ", is_yes), Vec::new(alloc))
}

fn so_many<T: Copy + Drop>(alloc: Global, value: T, count: usize, out: &mut Answer) -> Vec<T> {
    out.or(vec![in alloc; value; count], Vec::new(alloc))
}

/// Which children take their lists whole; none where nothing is said.
fn whole(alloc: Global, written: &str, children: usize, out: &mut Answer) -> Vec<bool> {
    if written.is_empty() {
        so_many(alloc, false, children, out)
    } else {
        flags(alloc, written, out)
    }
}

/// The wake of each child; none where nothing is said.
fn starts(alloc: Global, written: &str, children: usize, out: &mut Answer) -> Vec<Option<Tag>> {
    if written.is_empty() {
        so_many(alloc, None, children, out)
    } else {
        out.or(each_plain(alloc, written, " ", tags::any), Vec::new(alloc))
    }
}

pub fn inside(alloc: Global, written: &str, out: &mut Answer) -> DeInside {
    let sources = each_plain(alloc, part(written, "sources"), " ", source);
    let places = out.or(
        read_counts(alloc, part(written, "places")),
        Counts::of(Vec::new(alloc)),
    );
    let children = places.len();
    DeInside {
        sources: out.or(sources, Vec::new(alloc)),
        places,
        inputs: small(part(written, "inputs")),
        delayed: flags(alloc, part(written, "delayed"), out),
        early: flags(alloc, part(written, "early"), out),
        whole: whole(alloc, part(written, "whole"), children, out),
        starts: starts(alloc, part(written, "starts"), children, out),
    }
}

/// A loop from its least child on: it may begin at any.
fn tell_loop(alloc: Global, children: &[u32], out: &mut Answer) {
    let least = children.iter().copied().min().unwrap_or(0);
    let first = children
        .iter()
        .position(|child| *child == least)
        .unwrap_or(0);
    out.text("loop");
    for number in 0..children.len() {
        out.text(" ");
        named(alloc, &children[(first + number) % children.len()], out);
    }
}

fn tell(alloc: Global, inside: DeInside, out: &mut Answer) {
    match plan(alloc, inside) {
        Ok(plan) => {
            out.text("depths ");
            named(alloc, &plan.depths.as_slice(), out);
            drop(plan);
        }
        Err(DepthFault::Loop(children)) => tell_loop(alloc, &children, out),
        Err(fault) => named(alloc, &fault, out),
    }
}
