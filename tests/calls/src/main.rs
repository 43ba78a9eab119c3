//! Compares what calls of the crates answer with what was worked by hand, and tells the rows that differ.

mod agenda;
mod answer;
mod cores;
mod de_cores;
mod de_plans;
mod documents;
mod evaluation;
mod events;
mod expression_types;
mod firing;
mod flow_library;
mod io_calls;
mod json;
mod library;
mod lists;
mod machines;
mod modal;
mod numbers;
mod parameters;
mod parsing;
mod plans;
mod pn_cores;
mod printed_expressions;
mod program;
mod rates;
mod reaction;
mod readback;
mod receivers;
mod rv_cores;
mod scripts;
mod table;
mod tags;
mod time_library;
mod timed_library;
mod token_texts;
mod traces;
mod typed_nets;
mod types;
mod values;
mod wakes;
mod words;
mod written;
mod written_documents;

use answer::Answer;
use std::alloc::Global;
use std::sync::Wait;
use std::thread::Threads;
use std::{env, io};
use table::{Answers, Place, tell};

/// The questions of all tables: each table has a module of its name.
#[derive(Drop)]
struct Questions<'r, R> {
    rt: &'r R,
}

/// The name of a table's file, without its folder.
fn file_name(table: &str) -> &str {
    let (_, name) = table.rsplit_once('/').unwrap_or(("", table));
    name
}

impl<R: Threads + Wait + Sync> Answers for Questions<'_, R> {
    fn answer(&self, alloc: Global, place: Place<'_>, question: &str, out: &mut Answer) {
        let section = place.section;
        match file_name(place.table) {
            "values.txt" => values::answer(alloc, section, question, out),
            "types.txt" => types::answer(alloc, section, question, out),
            "parsing.txt" | "no_trees.txt" => parsing::answer(alloc, section, question, out),
            "printed_expressions.txt" => printed_expressions::answer(alloc, section, question, out),
            "evaluation.txt" => evaluation::answer(alloc, section, question, out),
            "expression_types.txt" => expression_types::answer(alloc, section, question, out),
            "rates.txt" => rates::answer(alloc, section, question, out),
            "plans.txt" => plans::answer(alloc, section, question, out),
            "events.txt" => events::answer(alloc, section, question, out),
            "wakes.txt" => wakes::answer(alloc, section, question, out),
            "agenda.txt" => agenda::answer(alloc, section, question, out),
            "de_plans.txt" => de_plans::answer(alloc, section, question, out),
            "reaction.txt" => reaction::answer(alloc, section, question, out),
            "pn_cores.txt" => pn_cores::answer(alloc, section, question, out),
            "rv_cores.txt" => rv_cores::answer(alloc, section, question, out),
            "de_cores.txt" => de_cores::answer(alloc, section, question, out),
            "modal.txt" => modal::answer(alloc, section, question, out),
            "receivers.txt" => receivers::answer(alloc, section, question, out),
            "tags.txt" => tags::answer(alloc, section, question, out),
            "firing.txt" => firing::answer(alloc, section, question, out),
            "parameters.txt" => parameters::answer(alloc, section, question, out),
            "flow_library.txt" => flow_library::answer(alloc, section, question, out),
            "time_library.txt" => time_library::answer(alloc, section, question, out),
            "timed_library.txt" => timed_library::answer(alloc, section, question, out),
            "traces.txt" => traces::answer(alloc, section, question, out),
            "readback.txt" => readback::answer(alloc, section, question, out),
            "written_documents.txt" => written_documents::answer(alloc, section, question, out),
            "words.txt" => words::answer(alloc, section, question, out),
            "json.txt" => json::answer(alloc, section, question, out),
            "io_calls.txt" => io_calls::answer(alloc, section, question, out),
            "documents.txt" => documents::answer(alloc, section, question, out),
            "machines.txt" => machines::answer(alloc, section, question, out),
            "typed_nets.txt" => typed_nets::answer(alloc, section, question, out),
            "program.txt" => program::answer(self.rt, alloc, section, question, out),
            _ => out.text("no such table"),
        }
    }
}

/// Tells each table that the words name.
fn main(rt: HostRuntime) -> io::Result<()> {
    for name in env::args(&rt)?.skip(1) {
        tell(&rt, &Questions { rt: &rt }, &[name.as_str()])?;
    }
    Ok(())
}
