use crate::answer::Answer;
use crate::lists::each_plain;
use crate::numbers::{integer, size, small};
use crate::scripts::{self, Subject, first_word, tell_count, tell_whether};
use crate::token_texts::{show_token, token};
use pt_recv::{Channels, Queue};
use pt_value::Token;
use std::alloc::{AllocError, Global};

/// Channels, and how many there are.
#[derive(Drop)]
struct Counted {
    channels: Channels,
    count: u32,
}

/// Answers a script of calls on a queue or on channels, each of which has its answer behind a `=` where it gives one.
pub fn answer(alloc: Global, section: &str, question: &str, out: &mut Answer) {
    match section {
        "a queue" => scripts::run(alloc, Queue::new(alloc), question, out),
        "one channel" => run_channels(alloc, 1, question, out),
        "two channels" => run_channels(alloc, 2, question, out),
        _ => out.no_such_section(),
    }
}

fn tell_token(taken: Option<Token>, out: &mut Answer) {
    out.text(" = ");
    match taken {
        Some(token) => {
            show_token(&token, out);
            drop(token);
        }
        None => out.text("none"),
    }
}

impl Subject for Queue {
    fn call(&mut self, alloc: Global, name: &str, rest: &str, out: &mut Answer) {
        match name {
            "reserve" => out.note(self.reserve(size(rest))),
            "put" => {
                let put = self.put(token(alloc, rest, out));
                tell_whether(put.is_ok(), out);
            }
            "take" => tell_token(self.take(), out),
            "len" => tell_count(alloc, self.len(), out),
            _ => scripts::no_such_call(out),
        }
    }

    fn copied(&self, alloc: Global) -> Result<Queue, AllocError> {
        self.copy(alloc)
    }
}

fn put_token(alloc: Global, channels: &mut Channels, c: u32, word: &str, out: &mut Answer) {
    if channels.spare(c) == 0 {
        out.text(" = no spare");
    } else {
        channels.put(c, token(alloc, word, out));
    }
}

fn put_one(channels: &mut Channels, c: u32, word: &str, out: &mut Answer) {
    if channels.spare(c) == 0 {
        out.text(" = no spare");
    } else {
        channels.put_number(c, integer(word));
    }
}

fn integers(alloc: Global, written: &str, out: &mut Answer) -> Vec<i64> {
    out.or(each_plain(alloc, written, " ", integer), Vec::new(alloc))
}

fn put_all(alloc: Global, channels: &mut Channels, c: u32, written: &str, out: &mut Answer) {
    let numbers = integers(alloc, written, out);
    if channels.spare(c) < numbers.len() {
        out.text(" = no spare");
    } else {
        channels.put_numbers(c, &numbers);
    }
}

fn push_all(alloc: Global, channels: &mut Channels, c: u32, written: &str, out: &mut Answer) {
    let numbers = integers(alloc, written, out);
    tell_whether(channels.push_numbers(c, &numbers), out);
}

fn skip(channels: &mut Channels, c: u32, count: usize, out: &mut Answer) {
    if channels.len(c) < count {
        out.text(" = too few");
    } else {
        channels.skip(c, count);
    }
}

fn move_front(channels: &mut Channels, count: u32, from: u32, to: u32, out: &mut Answer) {
    if to >= count || channels.len(from) == 0 || channels.spare(to) == 0 {
        out.text(" = no move");
    } else {
        channels.move_front(from, to);
    }
}

fn tell_numbers(alloc: Global, numbers: &[i64], out: &mut Answer) {
    out.text(" =");
    for number in numbers {
        out.text(" ");
        out.number(alloc, i128::from(*number));
    }
}

/// The calls that put tokens.
fn act_in(
    alloc: Global,
    channels: &mut Channels,
    c: u32,
    name: &str,
    rest: &str,
    out: &mut Answer,
) {
    match name {
        "ready" => out.note(channels.ready(c, size(rest))),
        "put" => put_token(alloc, channels, c, rest, out),
        "put_number" => put_one(channels, c, rest, out),
        "put_numbers" => put_all(alloc, channels, c, rest, out),
        "push_number" => tell_whether(channels.push_number(c, integer(rest)), out),
        "push_numbers" => push_all(alloc, channels, c, rest, out),
        _ => scripts::no_such_call(out),
    }
}

/// The calls that take tokens or look at them, and the others.
fn act(alloc: Global, channels: &mut Channels, c: u32, name: &str, rest: &str, out: &mut Answer) {
    match name {
        "take" => tell_token(channels.take(c), out),
        "take_number" => tell_token(channels.take_number(c).map(Token::Int), out),
        "skip" => skip(channels, c, size(rest), out),
        "len" => tell_count(alloc, channels.len(c), out),
        "spare" => tell_count(alloc, channels.spare(c), out),
        "numbers" => tell_numbers(alloc, channels.numbers(c), out),
        _ => act_in(alloc, channels, c, name, rest, out),
    }
}

/// A call has its channel behind its name, and then what else it takes.
impl Subject for Counted {
    fn call(&mut self, alloc: Global, name: &str, rest: &str, out: &mut Answer) {
        let (number, rest) = first_word(rest);
        let c = small(number);
        if c >= self.count {
            out.text(" = no such channel");
        } else if name == "move_front" {
            move_front(&mut self.channels, self.count, c, small(rest), out);
        } else {
            act(alloc, &mut self.channels, c, name, rest, out);
        }
    }

    fn copied(&self, alloc: Global) -> Result<Counted, AllocError> {
        let channels = self.channels.copy(alloc)?;
        Ok(Counted {
            channels,
            count: self.count,
        })
    }
}

fn run_channels(alloc: Global, count: u32, script: &str, out: &mut Answer) {
    match Channels::new(alloc, count) {
        Ok(channels) => scripts::run(alloc, Counted { channels, count }, script, out),
        Err(fault) => out.note(Err(fault)),
    }
}
