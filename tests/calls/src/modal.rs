use crate::answer::Answer;
use crate::lists::each;
use crate::numbers::{natural, part, small};
use crate::parsing::parsed;
use crate::token_texts::{read_token, show_ports};
use pt_chart::{Action, Mode, Names, Ports, Transition, Written};
use pt_core::Core as Driven;
use pt_firing::{Ask, Inputs, Need, Outputs, Tokens, Values};
use pt_flow_base::PortTypes;
use pt_language::{Expr, ParseFault};
use pt_modal::{Core, CorePlan};
use pt_time::Tag;
use pt_transitions::Chart;
use pt_types::Ty;
use pt_value::{Text, Token};
use std::alloc::{AllocError, Global};

/// Answers a run of a Modal whose input is x, whose outputs are y and z, and whose Variables n and m begin as 0.
/// Its states and transitions are written by their lists. Each of its two refinements has x, and y as its first output.
pub fn answer(alloc: Global, section: &str, question: &str, out: &mut Answer) {
    match section {
        "reactions" => match core(alloc, question) {
            Ok(Some(mut core)) => {
                run(alloc, &mut core, part(question, "run"), out);
                drop(core);
            }
            Ok(None) => out.text("no type"),
            Err(fault) => out.note(Err(fault)),
        },
        _ => out.no_such_section(),
    }
}

/// Names of integers.
fn integers(alloc: Global, words: &str) -> Result<PortTypes, AllocError> {
    let named = each(alloc, words, " ", |alloc, word| {
        Text::of(alloc, word).map(|name| (name, Ty::Int))
    })?;
    Ok(PortTypes::of(named))
}

fn names(alloc: Global) -> Result<Names, AllocError> {
    Ok(Names {
        inputs: integers(alloc, "x")?,
        outputs: integers(alloc, "y z")?,
        variables: integers(alloc, "n m")?,
        parameters: Values::of(Vec::new(alloc)),
    })
}

/// The number of a name among some.
fn number_among(names: &str, between: &str, name: &str) -> u32 {
    names
        .split(between)
        .position(|other| other.split('.').next() == Some(name))
        .unwrap_or(9) as u32
}

fn expression(alloc: Global, text: &str) -> Result<Expr, AllocError> {
    match parsed(alloc, text.trim()) {
        Ok(tree) => Ok(tree),
        Err(ParseFault::Memory) => Err(AllocError),
        Err(ParseFault::Syntax | ParseFault::Deep) => Ok(Expr::Int(0)),
    }
}

/// Actions on some targets, as `y = x + 1, z = 2`.
fn actions(alloc: Global, targets: &str, written: &str) -> Result<Vec<Action>, AllocError> {
    each(alloc, written, ", ", |alloc, action| {
        let (target, value) = action.split_once(" = ").unwrap_or((action, "0"));
        expression(alloc, value).map(|value| Action {
            target: number_among(targets, " ", target.trim()),
            value,
        })
    })
}

/// The part of a transition at a number, between bars.
fn between_bars(written: &str, number: usize) -> &str {
    written.split(" | ").nth(number).unwrap_or("")
}

/// A transition, as `run hold fresh | x == 1 | y = 5 | n = n + 1`.
fn transition(alloc: Global, states: &str, written: &str) -> Result<Transition, AllocError> {
    let head = between_bars(written, 0);
    let target = head.split(' ').nth(1).unwrap_or("");
    Ok(Transition {
        guard: expression(alloc, between_bars(written, 1))?,
        outputs: actions(alloc, "y z", between_bars(written, 2))?,
        sets: actions(alloc, "n m", between_bars(written, 3))?,
        target: number_among(states, " ", target),
        history: !head.ends_with("fresh"),
    })
}

/// The transitions of a state, of one kind.
fn transitions(
    alloc: Global,
    question: &str,
    state: &str,
    early: bool,
) -> Result<Vec<Transition>, AllocError> {
    let mut found = Vec::new(alloc);
    for written in part(question, "moves").split(" / ") {
        let head = between_bars(written, 0);
        if head.split(' ').next() == Some(state) && head.contains(" early") == early {
            found.push(transition(alloc, part(question, "states"), written)?)?;
        }
    }
    Ok(found)
}

/// A state, with its refinement where it has one, as `run.0`.
fn mode(alloc: Global, question: &str, written: &str) -> Result<Mode, AllocError> {
    let (name, refinement) = written.split_once('.').unwrap_or((written, ""));
    Ok(Mode {
        refinement: refinement.parse::<u32>().ok(),
        preemptive: transitions(alloc, question, name, true)?,
        others: transitions(alloc, question, name, false)?,
    })
}

fn ports(alloc: Global) -> Result<Ports, AllocError> {
    Ok(Ports {
        inputs: vec![in alloc; 0u32]?,
        outputs: vec![in alloc; Some(0u32), None]?,
    })
}

fn core(alloc: Global, question: &str) -> Result<Option<Core>, AllocError> {
    let modes = each(alloc, part(question, "states"), " ", |alloc, written| {
        mode(alloc, question, written)
    })?;
    let written = Written {
        names: names(alloc)?,
        values: vec![in alloc; Token::Int(0), Token::Int(0)]?,
        initial: 0,
        modes,
        ports: vec![in alloc; ports(alloc)?, ports(alloc)?]?,
    };
    let starts = vec![in alloc; Some(at(0)), Some(at(0))]?;
    match Chart::new(alloc, written)? {
        Some(chart) => Core::new(alloc, CorePlan::of(alloc, chart, starts)?).map(Some),
        None => Ok(None),
    }
}

fn at(time: u64) -> Tag {
    Tag { time, step: 0 }
}

/// A token for each word, and none for a dash.
fn given(alloc: Global, written: &str) -> Result<Vec<Tokens>, AllocError> {
    each(alloc, written, " ", |alloc, word| {
        if word == "-" {
            Ok(Tokens::new())
        } else {
            read_token(alloc, word).map(Tokens::one)
        }
    })
}

/// The reactions of a run, each at a time and on a token or none, with what the refinement gives if it fires, and its wake then.
fn run(alloc: Global, core: &mut Core, written: &str, out: &mut Answer) {
    for reaction in written.split(", ") {
        out.between(", ");
        let made = react(alloc, core, reaction, out);
        out.note(made);
    }
}

fn react(
    alloc: Global,
    core: &mut Core,
    written: &str,
    out: &mut Answer,
) -> Result<(), AllocError> {
    let (begin, fired) = written.split_once(" gives ").unwrap_or((written, "-"));
    let (time, token) = begin.split_once(' ').unwrap_or((begin, "-"));
    let inputs = given(alloc, token)?;
    Driven::begin(core, alloc, at(natural(time)), &Inputs::of(&inputs))?;
    for _ in 0..4 {
        match Driven::ask(core) {
            Ask::Fire(child, tag) => fire(alloc, core, child, tag, fired, out)?,
            Ask::Reset(child) => tell_child(alloc, "resets ", child, out),
            Ask::Finished => return finish(alloc, core, out),
            Ask::Faulted(fault, _) => {
                out.text("fault ");
                out.number(alloc, i128::from(fault.code()));
                return Ok(());
            }
            _ => out.text("no such answer"),
        }
    }
    Ok(())
}

fn tell_child(alloc: Global, word: &str, child: u32, out: &mut Answer) {
    out.text(word);
    out.number(alloc, i128::from(child));
    out.text(" ");
}

fn fire(
    alloc: Global,
    core: &mut Core,
    child: u32,
    tag: Tag,
    fired: &str,
    out: &mut Answer,
) -> Result<(), AllocError> {
    tell_child(alloc, "fires ", child, out);
    out.text("at ");
    out.number(alloc, i128::from(tag.time));
    out.text(" ");
    let (tokens, wake) = fired.split_once(" wakes ").unwrap_or((fired, ""));
    let outputs = Outputs::of(given(alloc, tokens)?);
    let wake = wake.parse::<u64>().ok().map(at);
    Driven::told(core, alloc, child, outputs, wake, Need::Any)
}

fn finish(alloc: Global, core: &mut Core, out: &mut Answer) -> Result<(), AllocError> {
    let outputs = Driven::finish(core, alloc)?;
    show_ports(&outputs, out);
    if let Some(tag) = Driven::next(core) {
        out.text(" wakes ");
        out.number(alloc, i128::from(tag.time));
    }
    Ok(())
}
