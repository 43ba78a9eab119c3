use crate::answer::Answer;
use crate::library::{place, state};
use crate::lists::{each_in, each_plain};
use crate::numbers::{named, part, size, small};
use crate::plans::source;
use crate::scripts::{self, Subject, first_word, tell_count, tell_tokens, tell_whether};
use crate::token_texts::{show, token, tokens};
use pt_firing::{Inputs, Outputs, Partial, Tokens};
use pt_reaction::{
    Channels, Feed, Line, Marks, copy_of, feeds_of, offsets_of, readers_of, stage_inputs,
    stage_outputs, stage_partial,
};
use std::alloc::{AllocError, Global};

/// Channels, and how many there are.
#[derive(Drop)]
struct Counted {
    channels: Channels,
    count: usize,
}

/// Answers a script of calls on what a reaction holds, or a question about its channels.
pub fn answer(alloc: Global, section: &str, question: &str, out: &mut Answer) {
    match section {
        "marks" | "channels" => run(alloc, section, question, out),
        "line" => scripts::run(alloc, Line::new(), question, out),
        "feeds" => tell_feeds(alloc, question, out),
        "offsets" => tell_offsets(alloc, question, out),
        "readers" => tell_readers(alloc, question, out),
        "outputs" | "early answer" | "inputs" => tell_staged(alloc, section, question, out),
        "copies" => copy(alloc, question, out),
        _ => out.no_such_section(),
    }
}

/// A script behind how many marks or channels there are.
fn run(alloc: Global, section: &str, question: &str, out: &mut Answer) {
    let (written, script) = scripts::parts(question, out);
    let count = size(written);
    if section == "marks" {
        match Marks::new(alloc, count) {
            Ok(marks) => scripts::run(alloc, marks, script, out),
            Err(fault) => out.note(Err(fault)),
        }
    } else {
        match Channels::new(alloc, count) {
            Ok(channels) => scripts::run(alloc, Counted { channels, count }, script, out),
            Err(fault) => out.note(Err(fault)),
        }
    }
}

impl Subject for Marks {
    fn call(&mut self, alloc: Global, name: &str, rest: &str, out: &mut Answer) {
        let number = size(rest);
        match name {
            "clear" => self.clear(),
            "len" => tell_count(alloc, self.len(), out),
            _ if number >= self.len() => out.text(" = no such number"),
            "mark" => self.mark(number),
            "is_marked" => tell_whether(self.is_marked(number), out),
            _ => scripts::no_such_call(out),
        }
    }

    fn copied(&self, alloc: Global) -> Result<Marks, AllocError> {
        self.copy(alloc)
    }
}

impl Subject for Line {
    fn call(&mut self, alloc: Global, name: &str, rest: &str, out: &mut Answer) {
        match name {
            "reserve" => out.note(self.reserve(alloc, size(rest))),
            "put" => put_on_line(alloc, self, rest, out),
            "put_first" => self.put_first(token(alloc, rest, out)),
            "pick" => tell_taken(self.pick(size(rest)), out),
            "take" => tell_taken(self.take(), out),
            "list" => tell_tokens(self.as_slice(), out),
            "len" => tell_count(alloc, self.len(), out),
            "is_empty" => tell_whether(self.is_empty(), out),
            "clear" => self.clear(),
            _ => scripts::no_such_call(out),
        }
    }

    fn copied(&self, alloc: Global) -> Result<Line, AllocError> {
        self.copy(alloc)
    }
}

fn tell_taken(taken: Tokens, out: &mut Answer) {
    tell_tokens(taken.as_slice(), out);
    drop(taken);
}

/// Makes room for the tokens, and puts each.
fn put_on_line(alloc: Global, line: &mut Line, written: &str, out: &mut Answer) {
    match line.reserve(alloc, written.split(' ').count()) {
        Ok(()) => {
            for word in written.split(' ') {
                line.put(token(alloc, word, out));
            }
        }
        Err(fault) => out.note(Err(fault)),
    }
}

/// A call on a channel has the channel behind its name, and then what else it takes.
impl Subject for Counted {
    fn call(&mut self, alloc: Global, name: &str, rest: &str, out: &mut Answer) {
        let (number, rest) = first_word(rest);
        let c = size(number);
        if name == "clear" {
            self.channels.clear();
        } else if c >= self.count {
            out.text(" = no such channel");
        } else {
            act(alloc, &mut self.channels, c, name, rest, out);
        }
    }

    fn copied(&self, alloc: Global) -> Result<Counted, AllocError> {
        let channels = self.channels.copy(alloc)?;
        Ok(Counted {
            channels,
            count: self.count,
        })
    }
}

fn act(alloc: Global, channels: &mut Channels, c: usize, name: &str, rest: &str, out: &mut Answer) {
    match name {
        "reserve" => out.note(channels.reserve(alloc, c, size(rest))),
        "put" => put(alloc, channels, c, rest, out),
        "put_first" => put_first(alloc, channels, c, rest, out),
        "list" => tell_tokens(channels.list(c), out),
        "is_empty" => tell_whether(channels.is_empty(c), out),
        "is_single" => tell_whether(channels.is_single(c), out),
        "take_list" => tell_taken(channels.take_list(c), out),
        "take" => {
            let line = channels.take(c);
            tell_tokens(line.as_slice(), out);
            drop(line);
        }
        _ => scripts::no_such_call(out),
    }
}

/// Makes room for the tokens on a channel, and puts each.
fn put(alloc: Global, channels: &mut Channels, c: usize, written: &str, out: &mut Answer) {
    match channels.reserve(alloc, c, written.split(' ').count()) {
        Ok(()) => {
            for word in written.split(' ') {
                channels.put(c, token(alloc, word, out));
            }
        }
        Err(fault) => out.note(Err(fault)),
    }
}

fn put_first(alloc: Global, channels: &mut Channels, c: usize, word: &str, out: &mut Answer) {
    if channels.is_empty(c) {
        channels.put_first(c, token(alloc, word, out));
    } else {
        out.text(" = not empty");
    }
}

fn counts(alloc: Global, written: &str, out: &mut Answer) -> Vec<usize> {
    out.or(each_plain(alloc, written, " ", size), Vec::new(alloc))
}

/// The feeds of each child and of the own inputs.
fn tell_feeds(alloc: Global, question: &str, out: &mut Answer) {
    let sources = each_plain(alloc, part(question, "sources"), " ", source);
    let sources = out.or(sources, Vec::new(alloc));
    let outputs = counts(alloc, part(question, "outputs"), out);
    let inputs = size(part(question, "inputs"));
    let rows = feeds_of(alloc, &sources, &outputs, inputs);
    let rows = out.or(rows, Vec::new(alloc));
    for row in &rows {
        tell_row(alloc, row, out);
    }
    drop(rows);
}

/// The channels that are fed, each behind its port.
fn tell_row(alloc: Global, row: &[Feed], out: &mut Answer) {
    out.text("[");
    for (k, feed) in row.iter().enumerate() {
        out.text(if k > 0 { ", " } else { "" });
        out.number(alloc, i128::from(feed.port));
        out.text(">");
        out.number(alloc, i128::from(feed.channel));
        out.either(feed.moves, " moved", " copied");
    }
    out.text("]");
}

fn tell_offsets(alloc: Global, question: &str, out: &mut Answer) {
    let places = counts(alloc, part(question, "places"), out);
    match offsets_of(alloc, &places) {
        Ok(offsets) => {
            named(alloc, &offsets.as_slice(), out);
            drop(offsets);
        }
        Err(fault) => out.note(Err(fault)),
    }
}

fn tell_readers(alloc: Global, question: &str, out: &mut Answer) {
    let places = counts(alloc, part(question, "places"), out);
    match readers_of(alloc, &places, size(part(question, "channels"))) {
        Ok(readers) => {
            named(alloc, &readers.as_slice(), out);
            drop(readers);
        }
        Err(fault) => out.note(Err(fault)),
    }
}

/// A feed: `0>2 moved`.
fn feed(written: &str) -> Feed {
    let (port, rest) = written.split_once('>').unwrap_or((written, ""));
    let (channel, kind) = first_word(rest);
    Feed {
        channel: small(channel),
        port: small(port),
        moves: kind == "moved",
    }
}

/// What is staged on so many channels.
fn tell_staged(alloc: Global, section: &str, question: &str, out: &mut Answer) {
    let feeds = each_plain(alloc, part(question, "feeds"), ", ", feed);
    let feeds = out.or(feeds, Vec::new(alloc));
    let count = size(part(question, "channels"));
    if feeds.iter().any(|feed| feed.channel as usize >= count) {
        out.text("no such channel");
        return;
    }
    match Channels::new(alloc, count) {
        Ok(mut channels) => {
            let given = part(question, "given");
            let staged = staged(alloc, section, given, &mut channels, &feeds, out);
            drop(channels);
            for tokens in &staged {
                show(tokens.as_slice(), out);
            }
            drop(staged);
        }
        Err(fault) => out.note(Err(fault)),
    }
}

/// What each feed gives of outputs, of an early answer, or of inputs.
fn staged(
    alloc: Global,
    section: &str,
    given: &str,
    channels: &mut Channels,
    feeds: &[Feed],
    out: &mut Answer,
) -> Vec<Tokens> {
    let mut staged = Vec::new(alloc);
    // What was staged before is let go.
    if staged.push(Tokens::new()).is_err() {
        out.note(Err(AllocError));
    }
    match section {
        "outputs" => {
            let outputs = Outputs::of(each_in(alloc, given, "/", place, out));
            out.note(stage_outputs(alloc, &mut staged, channels, feeds, outputs));
        }
        "early answer" => {
            let early = Partial::of(each_in(alloc, given, "/", state, out));
            out.note(stage_partial(alloc, &mut staged, channels, feeds, &early));
            drop(early);
        }
        _ => {
            let lists = each_in(alloc, given, "/", place, out);
            let inputs = Inputs::of(&lists);
            out.note(stage_inputs(alloc, &mut staged, channels, feeds, &inputs));
            drop(lists);
        }
    }
    staged
}

/// The copies of some tokens.
fn copy(alloc: Global, question: &str, out: &mut Answer) {
    let list = tokens(alloc, question, out);
    let copy = out.or(copy_of(alloc, list.as_slice()), Tokens::new());
    drop(list);
    show(copy.as_slice(), out);
    drop(copy);
}
