use crate::answer::Answer;
use pt_json::{Scratch, Unread, Value, read};
use std::alloc::Global;

/// Answers a question about bytes of JSON.
pub fn answer(alloc: Global, section: &str, question: &str, out: &mut Answer) {
    match section {
        "whole number at a" => match whole_at_a(alloc, question.as_bytes()) {
            Some(number) => out.number(alloc, i128::from(number)),
            None => out.text("none"),
        },
        "JSON" => out.text(kind(alloc, question.as_bytes())),
        "one byte of JSON" => out.text(kind(alloc, &[byte(question)])),
        _ => out.no_such_section(),
    }
}

/// The whole number at the member `a`.
fn whole_at_a(alloc: Global, bytes: &[u8]) -> Option<u64> {
    let mut scratch = Scratch::new(alloc);
    match read(alloc, bytes, &mut scratch) {
        Ok(value) => value.get("a").and_then(Value::as_u64),
        Err(_) => None,
    }
}

/// Whether bytes are JSON.
fn kind(alloc: Global, bytes: &[u8]) -> &'static str {
    let mut scratch = Scratch::new(alloc);
    match read(alloc, bytes, &mut scratch) {
        Ok(_) => "yes",
        Err(Unread::NoJson) => "no",
        Err(_) => "not read",
    }
}

/// The byte that is written in hexadecimal.
fn byte(written: &str) -> u8 {
    u8::from_str_radix(written, 16).unwrap_or(b'0')
}
