use std::alloc::{AllocError, Global};
use std::fmt;

/// An answer while it is written. Where memory is wanting it goes on without what had no room, and says so at its end.
#[derive(Drop)]
pub struct Answer {
    bytes: Vec<u8>,
    is_short: bool,
}

impl Answer {
    pub fn new(alloc: Global) -> Answer {
        Answer {
            bytes: Vec::new(alloc),
            is_short: false,
        }
    }

    /// What is written so far.
    pub fn as_slice(&self) -> &[u8] {
        self.bytes.as_slice()
    }

    /// The bytes, for a call that writes more of them. What that call returns goes to `note`.
    pub fn bytes(&mut self) -> &mut Vec<u8> {
        &mut self.bytes
    }

    /// Keeps in mind whether a call lacked memory.
    pub fn note(&mut self, made: Result<(), AllocError>) {
        if made.is_err() {
            self.is_short = true;
        }
    }

    /// What a call made, or another value where it lacked memory, which is kept in mind.
    pub fn or<T: Drop>(&mut self, made: Result<T, AllocError>, other: T) -> T {
        match made {
            Ok(value) => value,
            Err(fault) => {
                self.note(Err(fault));
                other
            }
        }
    }

    pub fn text(&mut self, text: &str) {
        self.bytes_of(text.as_bytes());
    }

    /// Writes bytes.
    pub fn bytes_of(&mut self, bytes: &[u8]) {
        let written = self.bytes.extend_from_slice(bytes);
        self.note(written);
    }

    /// Writes a mark behind what is written already, if anything is.
    pub fn between(&mut self, mark: &str) {
        if !self.bytes.is_empty() {
            self.text(mark);
        }
    }

    /// Writes another answer behind this one.
    pub fn append(&mut self, other: &Answer) {
        self.bytes_of(other.as_slice());
        self.is_short = self.is_short || other.is_short;
    }

    /// Says that the table has a section that the program has no answers for.
    pub fn no_such_section(&mut self) {
        self.text("no such section");
    }

    /// Writes the first text if the condition holds, and else the second.
    pub fn either(&mut self, holds: bool, first: &str, second: &str) {
        self.text(if holds { first } else { second });
    }

    /// Writes what a value is shown as.
    pub fn shown<D: fmt::Display>(&mut self, alloc: Global, value: &D) {
        match value.to_string(alloc) {
            Ok(text) => self.text(&text),
            Err(fault) => self.note(Err(fault)),
        }
    }

    pub fn number(&mut self, alloc: Global, number: i128) {
        self.shown(alloc, &number);
    }

    /// Says at the end whether memory was wanting.
    pub fn end(&mut self) {
        if self.is_short {
            self.text("out of memory");
        }
    }
}
