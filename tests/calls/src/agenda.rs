use crate::answer::Answer;
use crate::lists::{each, each_in};
use crate::numbers::part;
use crate::tags;
use crate::token_texts::{read_token, show};
use pt_agenda::{Turn, are_ascending, first_event, next_turn, tokens_at};
use pt_time::Tag;
use pt_value::Token;
use std::alloc::{AllocError, Global};

/// Answers a question about the events at inputs, or for the next turn of a DE top.
pub fn answer(alloc: Global, section: &str, question: &str, out: &mut Answer) {
    match section {
        "ascending" => tell_ascending(alloc, question, out),
        "first event" => {
            let inputs = inputs(alloc, question, out);
            tell_first(alloc, question, &inputs, out);
            drop(inputs);
        }
        "tokens" => {
            let inputs = inputs(alloc, question, out);
            tell_tokens(alloc, question, &inputs, out);
            drop(inputs);
        }
        "turn" => tell_turn(alloc, question, out),
        _ => out.no_such_section(),
    }
}

/// An event: `4.2 8`.
fn event(alloc: Global, written: &str) -> Result<(Tag, Token), AllocError> {
    let (at, word) = written.split_once(' ').unwrap_or((written, ""));
    let token = read_token(alloc, word)?;
    Ok((tags::tag(at), token))
}

/// The events of an input; `-` is none.
fn events(alloc: Global, written: &str) -> Result<Vec<(Tag, Token)>, AllocError> {
    let written = if written.trim() == "-" { "" } else { written };
    each(alloc, written, ", ", event)
}

fn inputs(alloc: Global, question: &str, out: &mut Answer) -> Vec<Vec<(Tag, Token)>> {
    each_in(alloc, part(question, "events"), " / ", events, out)
}

fn tell_ascending(alloc: Global, question: &str, out: &mut Answer) {
    let events = out.or(events(alloc, question), Vec::new(alloc));
    out.either(are_ascending(&events), "yes", "no");
    drop(events);
}

fn all_ascend(inputs: &[Vec<(Tag, Token)>]) -> bool {
    inputs.iter().all(|events| are_ascending(events))
}

fn tell_first(alloc: Global, question: &str, inputs: &[Vec<(Tag, Token)>], out: &mut Answer) {
    if all_ascend(inputs) {
        let last = tags::any(part(question, "after"));
        tags::show_any(alloc, first_event(last, inputs), out);
    } else {
        out.text("not ascending");
    }
}

fn tell_tokens(alloc: Global, question: &str, inputs: &[Vec<(Tag, Token)>], out: &mut Answer) {
    if !all_ascend(inputs) {
        out.text("not ascending");
        return;
    }
    let lists = tokens_at(alloc, tags::tag(part(question, "at")), inputs);
    let lists = out.or(lists, Vec::new(alloc));
    for tokens in &lists {
        show(tokens.as_slice(), out);
    }
    drop(lists);
}

/// The tag of a part; a dash is none.
fn tag_of(question: &str, name: &str) -> Option<Tag> {
    tags::any(part(question, name))
}

fn tell_turn(alloc: Global, question: &str, out: &mut Answer) {
    let turn = next_turn(
        part(question, "stop").parse::<u64>().ok(),
        tag_of(question, "event"),
        tag_of(question, "wake"),
        tag_of(question, "last"),
    );
    match turn {
        Turn::Fire(tag) => {
            out.text("fire at ");
            tags::show(alloc, tag, out);
        }
        Turn::Stop => out.text("stop"),
        Turn::Idle => out.text("idle"),
        Turn::Limit => out.text("limit"),
    }
}
