//! Numbers as tables write them, the parts of a question, and lists as answers write them.

use crate::answer::Answer;
use std::alloc::Global;
use std::fmt::Debug;

/// What stands behind a name among parts between semicolons: `inputs 1; outputs 0`. Nothing where no part has the name.
pub fn part<'q>(written: &'q str, name: &str) -> &'q str {
    for part in written.split("; ") {
        let (first, rest) = part.split_once(' ').unwrap_or((part, ""));
        if first == name {
            return rest;
        }
    }
    ""
}

/// A natural number.
pub fn natural(written: &str) -> u64 {
    written.trim().parse::<u64>().unwrap_or(0)
}

/// The same, within 32 bits.
pub fn small(written: &str) -> u32 {
    written.trim().parse::<u32>().unwrap_or(0)
}

/// The same, of a machine word.
pub fn size(written: &str) -> usize {
    written.trim().parse::<usize>().unwrap_or(0)
}

/// An integer.
pub fn integer(written: &str) -> i64 {
    written.trim().parse::<i64>().unwrap_or(0)
}

/// Writes a list of numbers, or a value by its name.
pub fn named<D: Debug>(alloc: Global, value: &D, out: &mut Answer) {
    match format!(in alloc; "{value:?}") {
        Ok(text) => out.text(&text),
        Err(fault) => out.note(Err(fault)),
    }
}
