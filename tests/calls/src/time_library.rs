use crate::answer::Answer;
use crate::library::{copy_lets_know, copy_ticks, params};
use crate::numbers::part;
use pt_lib_time::TimeActor;
use std::alloc::{AllocError, Global};

/// Answers a question about actors of synchronous models: `class C; values NAME TOKEN, ..; ports NAME CHANNELS, ..; ticks TOKEN / TOKEN .., ..; known TOKEN / TOKEN ..`.
pub fn answer(alloc: Global, section: &str, question: &str, out: &mut Answer) {
    let actor = actor_of(alloc, question, out);
    match out.or(actor, None) {
        Some(actor) => tell(alloc, section, actor, question, out),
        None => out.text("not started"),
    }
}

/// The actor that these parameters start, if they start one.
fn actor_of(
    alloc: Global,
    written: &str,
    out: &mut Answer,
) -> Result<Option<TimeActor>, AllocError> {
    let params = params(alloc, written, out)?;
    let actor = TimeActor::started(alloc, &params);
    drop(params);
    actor
}

fn tell(alloc: Global, section: &str, actor: TimeActor, written: &str, out: &mut Answer) {
    match section {
        "firings" => copy_ticks(alloc, actor, part(written, "ticks"), out),
        "early" => copy_lets_know(alloc, actor, written, out),
        _ => {
            drop(actor);
            out.no_such_section();
        }
    }
}
