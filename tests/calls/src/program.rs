use crate::answer::Answer;
use crate::lists::each;
use crate::words::word;
use pt_firing::OpenGate;
use pt_io::{MemSink, MemSource};
use pt_top::{Status, run_program};
use std::alloc::{AllocError, Global};
use std::sync::Wait;
use std::thread::Threads;

/// How many bytes a sink takes at a call, and in all.
const AT_ONCE: usize = 7;

const ROOM: usize = 65_536;

/// A document of so many bytes is read in several calls.
const LONG: usize = 10_000;

/// What is read, and which call of each device fails, if one does.
#[derive(Drop)]
struct Devices {
    document: Vec<u8>,
    failing_read: Option<u32>,
    failing_write: Option<u32>,
}

/// Answers what the program writes, and its exit status: for a document by the words of the section, or for words alone.
pub fn answer<R: Threads + Wait + Sync>(
    rt: &R,
    alloc: Global,
    section: &str,
    question: &str,
    out: &mut Answer,
) {
    let (words, document, length) = match section {
        "words alone" => (question, "", 0),
        "a third read that fails" => ("run", question, LONG),
        "a second write that fails" => ("run", question, 0),
        words => (words, question, 0),
    };
    let document = out.or(padded(alloc, document, length), Vec::new(alloc));
    let devices = Devices {
        document,
        failing_read: (section == "a third read that fails").then_some(2),
        failing_write: (section == "a second write that fails").then_some(1),
    };
    let told = tell(rt, alloc, words, devices, out);
    out.note(told);
}

/// A document with blanks behind it, so that it has so many bytes at least.
fn padded(alloc: Global, document: &str, length: usize) -> Result<Vec<u8>, AllocError> {
    let mut bytes = document.as_bytes().to_vec(alloc)?;
    while bytes.len() < length {
        bytes.push(b' ')?;
    }
    Ok(bytes)
}

/// The calls that fail.
fn failing(alloc: Global, call: Option<u32>) -> Result<Vec<u32>, AllocError> {
    let mut calls = Vec::new(alloc);
    if let Some(call) = call {
        calls.push(call)?;
    }
    Ok(calls)
}

fn tell<R: Threads + Wait + Sync>(
    rt: &R,
    alloc: Global,
    words: &str,
    devices: Devices,
    out: &mut Answer,
) -> Result<(), AllocError> {
    let words = each(alloc, words, " ", word)?;
    let reads = failing(alloc, devices.failing_read)?;
    let writes = failing(alloc, devices.failing_write)?;
    let mut source = MemSource::new(devices.document, reads);
    let mut sink = MemSink::new(alloc, AT_ONCE, ROOM, writes)?;
    let status = run_program(rt, alloc, &words, &mut source, &mut sink, &OpenGate);
    out.number(alloc, status as i128);
    out.text(": ");
    out.bytes_of(sink.bytes());
    Ok(())
}
