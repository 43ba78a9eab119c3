use crate::answer::Answer;
use pt_io::{Failed, MemSink, MemSource, ReadAll, read_all, write_all};
use std::alloc::{AllocError, Global};

/// Answers a question about bytes that are read and written.
pub fn answer(alloc: Global, section: &str, question: &str, out: &mut Answer) {
    match section {
        "read, at most five" => tell_read(alloc, question.as_bytes(), out),
        "written, two at a time, failing at the second call" => {
            tell_written(alloc, question.as_bytes(), out);
        }
        _ => out.no_such_section(),
    }
}

/// What is read of a source of these bytes where five may be read.
fn tell_read(alloc: Global, bytes: &[u8], out: &mut Answer) {
    let bytes = out.or(bytes.to_vec(alloc), Vec::new(alloc));
    let mut source = MemSource::new(bytes, Vec::new(alloc));
    let read = read_all(alloc, &mut source, 5);
    drop(source);
    match read {
        Ok(bytes) => out.bytes_of(&bytes),
        Err(ReadAll::TooLong) => out.text("too long"),
        Err(_) => out.text("not read"),
    }
}

/// A sink that takes two bytes at a time, and fails at its second call.
fn failing_sink(alloc: Global) -> Result<MemSink, AllocError> {
    MemSink::new(alloc, 2, 10, [1].to_vec(alloc)?)
}

/// What is written to such a sink.
fn tell_written(alloc: Global, bytes: &[u8], out: &mut Answer) {
    match failing_sink(alloc) {
        Ok(mut sink) => {
            out.text(match write_all(&mut sink, bytes) {
                Ok(()) => "written: ",
                Err(Failed) => "failed: ",
            });
            out.bytes_of(sink.bytes());
        }
        Err(fault) => out.note(Err(fault)),
    }
}
