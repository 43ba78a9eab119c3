use crate::answer::Answer;
use crate::lists::each_in;
use crate::numbers::{integer, part, small};
use crate::token_texts::read_token;
use pt_firing::{Gate, Names, OpenGate, Outputs, Ports, RunFault, Step, StepFault, Values};
use pt_value::{Text, Token};
use std::alloc::{AllocError, Global};

/// Answers a question about faults, or about what an actor is started from.
pub fn answer(alloc: Global, section: &str, question: &str, out: &mut Answer) {
    match section {
        "number of a fault" => tell_fault(alloc, question, out),
        "step" => out.text(told(step(question))),
        "gate" => {
            OpenGate.reach(0, 0);
            out.text("passed");
        }
        "values" => tell_value(alloc, question, out),
        "channels" => tell_channels(alloc, question, out),
        "names but one" => tell_names(alloc, question, out),
        _ => out.no_such_section(),
    }
}

/// The fault of a name.
pub fn fault_named(name: &str) -> Option<RunFault> {
    match name {
        "DivideByZero" => Some(RunFault::DivideByZero),
        "Overflow" => Some(RunFault::Overflow),
        "Index" => Some(RunFault::Index),
        "Size" => Some(RunFault::Size),
        "Rate" => Some(RunFault::Rate),
        "SecondToken" => Some(RunFault::SecondToken),
        "Causality" => Some(RunFault::Causality),
        "Ambiguous" => Some(RunFault::Ambiguous),
        "TimeLimit" => Some(RunFault::TimeLimit),
        "Length" => Some(RunFault::Length),
        _ => None,
    }
}

fn tell_fault(alloc: Global, name: &str, out: &mut Answer) {
    match fault_named(name) {
        Some(fault) => out.number(alloc, i128::from(fault.code())),
        None => out.text("no such fault"),
    }
}

/// What is made of a firing: outputs without ports, the fault of this name, or want of memory.
fn step(name: &str) -> Step {
    match name {
        "outputs" => Step::from(Ok(Outputs::none(0))),
        "memory" => Step::from(Err(StepFault::Memory)),
        _ => match fault_named(name) {
            Some(fault) => Step::from(Err(StepFault::from(fault))),
            None => Step::from(Ok(Outputs::none(0))),
        },
    }
}

fn told(step: Step) -> &'static str {
    match step {
        Step::Done(_) => "done",
        Step::Fault(RunFault::Index) => "the fault Index",
        Step::Fault(_) => "another fault",
        Step::Memory => "memory",
    }
}

/// A name with a token: `init 7`.
fn value(alloc: Global, written: &str) -> Result<(Text, Token), AllocError> {
    let (name, word) = written.split_once(' ').unwrap_or((written, ""));
    let token = read_token(alloc, word)?;
    Ok((Text::of(alloc, name)?, token))
}

/// Names with tokens: `init 7, step 1`.
pub fn values(alloc: Global, written: &str, out: &mut Answer) -> Values {
    Values::of(each_in(alloc, written, ", ", value, out))
}

/// A name with a number of channels: `plus 2`.
fn port(alloc: Global, written: &str) -> Result<(Text, u32), AllocError> {
    let (name, count) = written.split_once(' ').unwrap_or((written, ""));
    Ok((Text::of(alloc, name)?, small(count)))
}

/// Names with numbers of channels: `plus 2, minus 1`.
pub fn ports(alloc: Global, written: &str, out: &mut Answer) -> Ports {
    Ports::of(each_in(alloc, written, ", ", port, out))
}

fn copied_values(alloc: Global, written: &str, out: &mut Answer) -> Values {
    let values = values(alloc, written, out);
    let copy = values.copy(alloc);
    out.or(copy, values)
}

fn tell_integer(alloc: Global, found: Option<i64>, out: &mut Answer) {
    match found {
        Some(number) => out.number(alloc, i128::from(number)),
        None => out.text("none"),
    }
}

/// What a question finds: `count`, `int init 0`, `within init 0 0 6` or `bool init true`.
fn ask(alloc: Global, values: &Values, question: &str, out: &mut Answer) {
    let (kind, rest) = question.split_once(' ').unwrap_or((question, ""));
    let (name, default) = rest.split_once(' ').unwrap_or((rest, ""));
    match kind {
        "count" => out.number(alloc, values.as_slice().len() as i128),
        "int" => tell_integer(alloc, values.int_or(name, integer(default)), out),
        "bool" => {
            let is_one = values.bool_or(name, default == "true").is_some();
            out.either(is_one, "one", "none");
        }
        _ => tell_integer(alloc, within(values, name, default), out),
    }
}

/// The number of a name within limits, by `DEFAULT LOW HIGH`.
fn within(values: &Values, name: &str, limits: &str) -> Option<i64> {
    let (default, limits) = limits.split_once(' ').unwrap_or((limits, ""));
    let (low, high) = limits.split_once(' ').unwrap_or((limits, ""));
    values.int_within(name, integer(default), integer(low), integer(high))
}

fn tell_value(alloc: Global, question: &str, out: &mut Answer) {
    let (asked, written) = question.split_once(" of ").unwrap_or((question, ""));
    let values = copied_values(alloc, written, out);
    ask(alloc, &values, asked, out);
    drop(values);
}

fn tell_channels(alloc: Global, question: &str, out: &mut Answer) {
    let (name, written) = question.split_once(" of ").unwrap_or((question, ""));
    let ports = ports(alloc, written, out);
    out.number(alloc, i128::from(ports.channels(name)));
    drop(ports);
}

/// A copy of the names of the ports but one.
fn names_but(alloc: Global, ports: &Ports, other: &str) -> Result<Names, AllocError> {
    let names = ports.names_but(alloc, other)?;
    let copy = names.copy(alloc);
    drop(names);
    copy
}

fn tell_names(alloc: Global, question: &str, out: &mut Answer) {
    let ports = ports(alloc, part(question, "ports"), out);
    let names = names_but(alloc, &ports, part(question, "but"));
    drop(ports);
    let names = out.or(names, Names::of(Vec::new(alloc)));
    out.number(alloc, names.len() as i128);
    for name in names.as_slice() {
        out.text(" ");
        out.text(name.as_str());
    }
    drop(names);
}
