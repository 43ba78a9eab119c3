use crate::answer::Answer;
use crate::lists::each_plain;
use crate::numbers::{named, natural, small};
use pt_rates::{Edge, are_channels, solve};
use pt_sched::{SchedEdge, Stretch, schedule};
use std::alloc::{AllocError, Global};
use std::str::SplitWhitespace;

/// Answers a question about rates or schedules: how many nodes there are, and the balance equations of the channels.
pub fn answer(alloc: Global, section: &str, question: &str, out: &mut Answer) {
    let (count, equations) = question.split_once(':').unwrap_or((question, ""));
    let channels = each_plain(alloc, equations, ", ", channel);
    let channels = out.or(channels, Vec::new(alloc));
    let edges = out.or(edges(alloc, &channels), Vec::new(alloc));
    tell(alloc, section, small(count), &channels, &edges, out);
}

fn tell(
    alloc: Global,
    section: &str,
    count: u32,
    channels: &[SchedEdge],
    edges: &[Edge],
    out: &mut Answer,
) {
    if are_channels(count, edges) {
        match solve(alloc, count, edges) {
            Ok(q) => tell_rates(alloc, section, count, channels, &q, out),
            Err(fault) => named(alloc, &fault, out),
        }
    } else {
        out.text("no channels");
    }
}

/// The next word, where it is a number, and behind it a sign is left out.
fn next(words: &mut SplitWhitespace<'_>) -> u64 {
    let number = natural(words.next().unwrap_or("0"));
    words.next();
    number
}

/// A node's number; that of no node where it is too large.
fn node(number: u64) -> u32 {
    u32::try_from(number).unwrap_or(u32::MAX)
}

/// A channel by its equation, with its first tokens: `0 * 1 = 1 * 1 + 2`.
fn channel(equation: &str) -> SchedEdge {
    let mut words = equation.split_whitespace();
    let from = node(next(&mut words));
    let produced = next(&mut words);
    let to = node(next(&mut words));
    let consumed = next(&mut words);
    SchedEdge {
        edge: Edge {
            from,
            produced,
            to,
            consumed,
        },
        initial: next(&mut words),
    }
}

fn edges(alloc: Global, channels: &[SchedEdge]) -> Result<Vec<Edge>, AllocError> {
    let mut edges = Vec::new(alloc);
    for channel in channels {
        edges.push(channel.edge)?;
    }
    Ok(edges)
}

/// The repetition vector, and behind it the schedule, where one is asked for.
fn tell_rates(
    alloc: Global,
    section: &str,
    count: u32,
    channels: &[SchedEdge],
    q: &[u64],
    out: &mut Answer,
) {
    named(alloc, &q, out);
    if section != "schedules" {
        return;
    }
    if q.len() == count as usize && pt_sched::are_channels(count, channels) {
        tell_schedule(alloc, count, channels, q, out);
    } else {
        out.text(" not scheduled");
    }
}

/// The firings of an order, one after another.
pub fn spelled(alloc: Global, order: &[Stretch], out: &mut Answer) {
    match firings(alloc, order) {
        Ok(firings) => named(alloc, &firings, out),
        Err(fault) => out.note(Err(fault)),
    }
}

fn firings(alloc: Global, order: &[Stretch]) -> Result<Vec<u32>, AllocError> {
    let mut firings = Vec::new(alloc);
    for stretch in order {
        firings.push(stretch.child)?;
        for _ in 0..stretch.again {
            firings.push(stretch.child)?;
        }
    }
    Ok(firings)
}

/// The order and the greatest lengths of the channels, or why there is none.
fn tell_schedule(alloc: Global, count: u32, channels: &[SchedEdge], q: &[u64], out: &mut Answer) {
    match schedule(alloc, count, channels, q) {
        Ok(plan) => {
            out.text(" in the order ");
            spelled(alloc, &plan.order, out);
            out.text(" with ");
            named(alloc, &plan.lengths, out);
        }
        Err(fault) => {
            out.text(" ");
            named(alloc, &fault, out);
        }
    }
}
