use crate::answer::Answer;
use pt_document::{DocFault, Job, Refusal};
use pt_moml::read;
use std::alloc::{AllocError, Global};

/// Answers the question what comes of a document: how much stands at its top, or the number and the name of the code that refuses
/// it, and the path.
pub fn answer(alloc: Global, section: &str, question: &str, out: &mut Answer) {
    match section {
        "read" => tell(alloc, question, out),
        _ => out.no_such_section(),
    }
}

fn tell(alloc: Global, document: &str, out: &mut Answer) {
    match read(alloc, document.as_bytes()) {
        Ok(job) => tell_read(alloc, job, out),
        Err(DocFault::Memory) => out.note(Err(AllocError)),
        Err(DocFault::Refused(refusal)) => tell_refused(alloc, &refusal, out),
    }
}

fn tell_read(alloc: Global, job: Job, out: &mut Answer) {
    let (entities, ports) = (job.model.entities.len(), job.model.ports.len());
    drop(job);
    out.number(alloc, entities as i128);
    out.text(" entities, ");
    out.number(alloc, ports as i128);
    out.text(" ports");
}

fn tell_refused(alloc: Global, refusal: &Refusal, out: &mut Answer) {
    out.number(alloc, i128::from(refusal.code.number()));
    out.text(" ");
    out.text(refusal.code.name());
    out.text(" ");
    out.text(refusal.path.as_str());
}
