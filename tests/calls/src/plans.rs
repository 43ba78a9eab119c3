use crate::answer::Answer;
use crate::lists::{each_in, each_plain};
use crate::numbers::{named, part, size, small};
use crate::rates::spelled;
use pt_core::Source;
use pt_firing::Counts;
use pt_plan::{Inside, plan};
use pt_sdf_parts::CorePlan;
use std::alloc::{AllocError, Global};

/// Answers the question for the plan of an inside, which is written by its lists.
pub fn answer(alloc: Global, section: &str, question: &str, out: &mut Answer) {
    match section {
        "plan" => {
            let inside = inside(alloc, question, out);
            tell(alloc, inside, out);
        }
        _ => out.no_such_section(),
    }
}

fn read_counts(alloc: Global, written: &str) -> Result<Counts, AllocError> {
    Ok(Counts::of(each_plain(alloc, written, " ", size)?))
}

fn counts(alloc: Global, written: &str, out: &mut Answer) -> Counts {
    out.or(read_counts(alloc, written), Counts::of(Vec::new(alloc)))
}

/// Where a channel begins: `1.0` at the child 1 and its output 0, `0` at the own input 0.
pub fn source(word: &str) -> Source {
    match word.split_once('.') {
        Some((child, output)) => Source::Output(small(child), small(output)),
        None => Source::Own(small(word)),
    }
}

fn inside(alloc: Global, written: &str, out: &mut Answer) -> Inside {
    let sources = each_plain(alloc, part(written, "sources"), " ", source);
    Inside {
        sources: out.or(sources, Vec::new(alloc)),
        places: counts(alloc, part(written, "places"), out),
        needs: counts(alloc, part(written, "needs"), out),
        rates: each_in(alloc, part(written, "rates"), "/", read_counts, out),
        first: counts(alloc, part(written, "first"), out),
        inputs: small(part(written, "inputs")),
        outputs: small(part(written, "outputs")),
    }
}

fn show(alloc: Global, name: &str, counts: &[usize], out: &mut Answer) {
    out.text(name);
    named(alloc, &counts, out);
}

fn show_plan(alloc: Global, plan: &CorePlan, out: &mut Answer) {
    show(alloc, "repetitions ", plan.repetitions.as_slice(), out);
    show(alloc, ", takes ", plan.takes.as_slice(), out);
    show(alloc, ", gives ", plan.gives.as_slice(), out);
    out.text(", order ");
    spelled(alloc, &plan.order, out);
    show(alloc, ", room ", plan.room.as_slice(), out);
    out.text(", sources ");
    named(alloc, &plan.sources.as_slice(), out);
}

fn tell(alloc: Global, inside: Inside, out: &mut Answer) {
    if !inside.is_well_formed() {
        out.text("not well formed");
        return;
    }
    match plan(alloc, inside) {
        Ok(plan) => {
            show_plan(alloc, &plan, out);
            drop(plan);
        }
        Err(fault) => named(alloc, &fault, out),
    }
}
