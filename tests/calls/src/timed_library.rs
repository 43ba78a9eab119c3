use crate::answer::Answer;
use crate::library::{copy_fires_in_time, copy_lets_know_at, copy_wakes, params};
use crate::numbers::part;
use pt_lib_timed::TimedActor;
use std::alloc::{AllocError, Global};

/// Answers a question about actors of timed models: `class C; values NAME TOKEN, ..; ports NAME CHANNELS, ..; firings TAG: TOKEN .. / TOKEN .., ..; at TAG; known TOKEN .. / TOKEN ..`.
pub fn answer(alloc: Global, section: &str, question: &str, out: &mut Answer) {
    let actor = actor_of(alloc, question, out);
    match out.or(actor, None) {
        Some(actor) => tell(alloc, section, actor, question, out),
        None => out.text("not started"),
    }
}

/// The actor that these parameters start, if they start one.
fn actor_of(
    alloc: Global,
    written: &str,
    out: &mut Answer,
) -> Result<Option<TimedActor>, AllocError> {
    let params = params(alloc, written, out)?;
    let actor = TimedActor::started(alloc, &params);
    drop(params);
    actor
}

fn tell(alloc: Global, section: &str, actor: TimedActor, written: &str, out: &mut Answer) {
    match section {
        "firings" => copy_fires_in_time(alloc, actor, part(written, "firings"), out),
        "wakes" => copy_wakes(alloc, actor, part(written, "firings"), out),
        "early" => copy_lets_know_at(alloc, actor, written, out),
        _ => {
            drop(actor);
            out.no_such_section();
        }
    }
}
