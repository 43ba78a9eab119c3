use crate::answer::Answer;
use pt_document::{DocFault, Job};
use pt_moml::read;
use pt_write::write;
use std::alloc::{AllocError, Global};

/// Answers how the job is written that a document is read as.
pub fn answer(alloc: Global, section: &str, question: &str, out: &mut Answer) {
    match section {
        "written again" | "in another form" => tell(alloc, section, question, out),
        _ => out.no_such_section(),
    }
}

fn tell(alloc: Global, section: &str, document: &str, out: &mut Answer) {
    match read(alloc, document.as_bytes()) {
        Ok(job) => {
            let written = written(alloc, &job, out);
            drop(job);
            if section == "written again" && written.as_slice() == document.as_bytes() {
                out.text("the same");
            } else {
                out.bytes_of(&written);
            }
            drop(written);
        }
        Err(DocFault::Memory) => out.note(Err(AllocError)),
        Err(DocFault::Refused(refusal)) => {
            drop(refusal);
            out.text("refused");
        }
    }
}

fn written(alloc: Global, job: &Job, out: &mut Answer) -> Vec<u8> {
    out.or(write(alloc, job), Vec::new(alloc))
}
