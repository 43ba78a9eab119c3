use crate::answer::Answer;
use crate::library::state;
use crate::lists::{each_in, each_plain};
use crate::numbers::{part, size};
use crate::token_texts::{lists, show, show_ports, show_token, token, tokens};
use pt_firing::{Counts, Inputs, Outputs, Partial, Tokens, TriState};
use std::alloc::{AllocError, Global};

/// Answers a question about tokens, outputs, inputs or what is known of places.
pub fn answer(alloc: Global, section: &str, question: &str, out: &mut Answer) {
    match section {
        "copy of tokens" => copy_tokens(alloc, question, out),
        "tokens taken" => take_tokens(alloc, question, out),
        "outputs" => show_outputs(alloc, question, out),
        "copy of outputs" => copy_outputs(alloc, question, out),
        "port taken" => take_port(alloc, question, out),
        "one output" => take_one(alloc, question, out),
        "lists of outputs" => count_ports(alloc, question, out),
        "inputs" => tell_inputs(alloc, question, out),
        _ => answer_about_places(alloc, section, question, out),
    }
}

fn answer_about_places(alloc: Global, section: &str, question: &str, out: &mut Answer) {
    match section {
        "counts" => tell_lengths(alloc, question, out),
        "known" => tell_known(alloc, question, out),
        "tokens of a known place" => known_tokens(alloc, question, out),
        "places" => {
            let partial = places(alloc, question, out);
            tell_places(alloc, partial, out);
        }
        "copy of places" => copy_places(alloc, question, out),
        "states" => count_states(alloc, question, out),
        _ => out.no_such_section(),
    }
}

/// How many tokens a list has, and the texts of its copy.
fn copy_tokens(alloc: Global, question: &str, out: &mut Answer) {
    let list = tokens(alloc, question, out);
    out.number(alloc, list.len() as i128);
    out.text(": ");
    let copy = out.or(list.copy(alloc), Tokens::new());
    drop(list);
    show(copy.as_slice(), out);
    drop(copy);
}

/// The texts of the tokens that are taken, and whether none is left.
fn take_tokens(alloc: Global, question: &str, out: &mut Answer) {
    let mut list = tokens(alloc, question, out);
    let taken = list.take();
    show(taken.as_slice(), out);
    drop(taken);
    out.either(list.is_empty(), " and none left", " and more");
    drop(list);
}

/// Puts a token at a port: `2 5` puts 5 at the port 2.
fn put_at(alloc: Global, outputs: &mut Outputs, pair: &str, out: &mut Answer) {
    let (port, word) = pair.split_once(' ').unwrap_or((pair, ""));
    let port = size(port);
    if port < outputs.ports() {
        let put = outputs.push(alloc, port, token(alloc, word, out));
        out.note(put);
    }
}

/// The outputs of so many ports with some tokens, one by one: `ports 3; tokens 0 1, 2 5` puts 1 at the port 0 and 5 at the port 2.
fn outputs(alloc: Global, written: &str, out: &mut Answer) -> Outputs {
    let mut outputs = Outputs::none(size(part(written, "ports")));
    for pair in part(written, "tokens").split(", ") {
        put_at(alloc, &mut outputs, pair, out);
    }
    outputs
}

fn show_outputs(alloc: Global, question: &str, out: &mut Answer) {
    let outputs = outputs(alloc, question, out);
    show_ports(&outputs, out);
    drop(outputs);
}

fn copy_outputs(alloc: Global, question: &str, out: &mut Answer) {
    let outputs = outputs(alloc, question, out);
    let copy = out.or(outputs.copy(alloc), Outputs::none(0));
    drop(outputs);
    show_ports(&copy, out);
    drop(copy);
}

/// The texts of the tokens that are taken of a port.
fn show_taken(outputs: &mut Outputs, port: usize, out: &mut Answer) {
    if port < outputs.ports() {
        let taken = outputs.take(port);
        show(taken.as_slice(), out);
        drop(taken);
    } else {
        out.text("no such port");
    }
}

fn take_port(alloc: Global, question: &str, out: &mut Answer) {
    let mut outputs = outputs(alloc, question, out);
    show_taken(&mut outputs, size(part(question, "take")), out);
    drop(outputs);
}

fn take_one(alloc: Global, question: &str, out: &mut Answer) {
    let mut outputs = Outputs::one(token(alloc, question, out));
    show_taken(&mut outputs, 0, out);
    drop(outputs);
}

/// How many ports outputs have that are made of lists.
fn count_ports(alloc: Global, question: &str, out: &mut Answer) {
    let outputs = Outputs::of(lists(alloc, question, out));
    out.number(alloc, outputs.ports() as i128);
    drop(outputs);
}

fn tell_inputs(alloc: Global, question: &str, out: &mut Answer) {
    let lists = lists(alloc, question, out);
    show_inputs(alloc, &lists, out);
    drop(lists);
}

/// How many places the inputs have, and the texts of their tokens.
fn show_inputs(alloc: Global, lists: &[Tokens], out: &mut Answer) {
    let inputs = Inputs::of(lists);
    out.number(alloc, inputs.places() as i128);
    out.text(": ");
    for place in 0..inputs.places() {
        show(inputs.list(place), out);
    }
}

/// A copy of the counts that are written between blanks.
fn counts(alloc: Global, written: &str) -> Result<Counts, AllocError> {
    Counts::of(each_plain(alloc, written, " ", size)?).copy(alloc)
}

/// Whether these are the lengths of the lists.
fn are_lengths(counts: &[usize], lists: &[Tokens]) -> bool {
    let inputs = Inputs::of(lists);
    for (place, count) in counts.iter().enumerate() {
        if inputs.places() <= place || inputs.list(place).len() != *count {
            return false;
        }
    }
    true
}

/// How many counts there are, and whether they are the lengths of some lists.
fn tell_lengths(alloc: Global, written: &str, out: &mut Answer) {
    let counts = counts(alloc, part(written, "counts"));
    let counts = out.or(counts, Counts::of(Vec::new(alloc)));
    let lists = lists(alloc, part(written, "lists"), out);
    out.number(alloc, counts.len() as i128);
    let are_lengths = are_lengths(counts.as_slice(), &lists);
    drop(lists);
    drop(counts);
    out.either(are_lengths, ", the lengths", ", not the lengths");
}

fn known(alloc: Global, written: &str, out: &mut Answer) -> TriState {
    TriState::known(tokens(alloc, written, out))
}

fn kind(state: &TriState) -> &'static str {
    match state {
        TriState::Unknown => "unknown",
        TriState::Absent => "absent",
        TriState::Present(_) => "present",
        TriState::More(_) => "more",
    }
}

fn tell_known(alloc: Global, question: &str, out: &mut Answer) {
    let state = known(alloc, question, out);
    out.text(kind(&state));
    drop(state);
}

fn known_tokens(alloc: Global, question: &str, out: &mut Answer) {
    let state = known(alloc, question, out);
    let tokens = out.or(state.tokens(alloc), Tokens::new());
    drop(state);
    show(tokens.as_slice(), out);
    drop(tokens);
}

/// What is known of no place.
pub fn no_places(alloc: Global) -> Partial {
    Partial::of(Vec::new(alloc))
}

/// So many unknown places, of which one is set to what is known: `count 2; set 1; known 7`.
fn places(alloc: Global, written: &str, out: &mut Answer) -> Partial {
    let state = known(alloc, part(written, "known"), out);
    let unknown = Partial::unknown(alloc, size(part(written, "count")));
    let mut partial = out.or(unknown, no_places(alloc));
    set(&mut partial, size(part(written, "set")), state);
    partial
}

fn set(partial: &mut Partial, place: usize, state: TriState) {
    if place < partial.places() {
        partial.set(place, state);
    }
}

fn show_state(state: &TriState, out: &mut Answer) {
    out.text(" ");
    out.text(kind(state));
    if let TriState::Present(token) = state {
        out.text(" ");
        show_token(token, out);
    }
}

/// How many places there are, and what is known of each.
pub fn tell_places(alloc: Global, partial: Partial, out: &mut Answer) {
    show_places(alloc, &partial, out);
    drop(partial);
}

fn show_places(alloc: Global, partial: &Partial, out: &mut Answer) {
    out.number(alloc, partial.places() as i128);
    out.text(":");
    for place in 0..partial.places() {
        show_state(partial.get(place), out);
    }
}

fn copy_places(alloc: Global, question: &str, out: &mut Answer) {
    let partial = places(alloc, question, out);
    let copy = out.or(partial.copy(alloc), no_places(alloc));
    drop(partial);
    tell_places(alloc, copy, out);
}

/// How many places there are of states between slashes.
fn count_states(alloc: Global, question: &str, out: &mut Answer) {
    let partial = Partial::of(each_in(alloc, question, "/", state, out));
    out.number(alloc, partial.places() as i128);
    drop(partial);
}
