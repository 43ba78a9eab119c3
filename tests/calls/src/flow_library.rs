use crate::answer::Answer;
use crate::library::{copy_fires, early, params};
use crate::numbers::{integer, part};
use crate::token_texts::read_tokens;
use pt_firing::{Actor, Partial};
use pt_flow_base::{Params, PortTypes};
use pt_flow_streams::SampleDelay;
use pt_language::{BinaryOp, Expr};
use pt_lib_flow::{Expression, FlowActor, Values};
use pt_types::Ty;
use pt_value::Text;
use std::alloc::{AllocError, Global};

/// Answers a question about library actors: `class C; values NAME TOKEN, ..; ports NAME CHANNELS, ..; places TOKEN .. / TOKEN ..`.
pub fn answer(alloc: Global, section: &str, question: &str, out: &mut Answer) {
    match section {
        "first firing" => tell_firing(alloc, question, out),
        "early" => tell_early(alloc, question, out),
        "p + x" => {
            let actor = sum(alloc, out);
            fires_if_started(alloc, actor, question, out);
        }
        "literal" => tell_literal(alloc, question, out),
        "first tokens of a delay" => tell_first(alloc, question, out),
        _ => out.no_such_section(),
    }
}

fn started(alloc: Global, params: &Params) -> Result<Option<FlowActor>, AllocError> {
    match FlowActor::started(alloc, params)? {
        Some(actor) => {
            drop(actor);
            FlowActor::start(alloc, params).map(Some)
        }
        None => Ok(None),
    }
}

/// The actor that these parameters start, if they start one.
fn actor_of(
    alloc: Global,
    written: &str,
    out: &mut Answer,
) -> Result<Option<FlowActor>, AllocError> {
    let params = params(alloc, written, out)?;
    let actor = started(alloc, &params);
    drop(params);
    actor
}

/// What a copy of the actor gives, if there is one.
fn fires_if_started(
    alloc: Global,
    actor: Result<Option<FlowActor>, AllocError>,
    places: &str,
    out: &mut Answer,
) {
    match out.or(actor, None) {
        Some(actor) => copy_fires(alloc, actor, places, out),
        None => out.text("not started"),
    }
}

fn tell_firing(alloc: Global, written: &str, out: &mut Answer) {
    let actor = actor_of(alloc, written, out);
    fires_if_started(alloc, actor, part(written, "places"), out);
}

/// Whether an actor tells early of each output, while an input is unknown.
fn is_early(alloc: Global, actor: &FlowActor, out: &mut Answer) -> Result<bool, AllocError> {
    let unknown = Partial::unknown(alloc, 1)?;
    let told = early(alloc, actor, &unknown, out);
    Ok(told.places() == actor.outputs())
}

fn tell_is_early(alloc: Global, actor: &FlowActor, out: &mut Answer) {
    let is_early = is_early(alloc, actor, out);
    let is_early = out.or(is_early, false);
    out.either(is_early, "each output", "not each output");
}

fn tell_early(alloc: Global, written: &str, out: &mut Answer) {
    let actor = actor_of(alloc, written, out);
    match out.or(actor, None) {
        Some(actor) => {
            tell_is_early(alloc, &actor, out);
            drop(actor);
        }
        None => out.text("not started"),
    }
}

fn name(alloc: Global, text: &str) -> Result<Box<Expr>, AllocError> {
    Ok(Box::new(alloc, Expr::Name(Text::of(alloc, text)?))?)
}

/// The tree `p + x`.
fn sum_tree(alloc: Global) -> Result<Expr, AllocError> {
    let p = name(alloc, "p")?;
    let x = name(alloc, "x")?;
    Ok(Expr::Binary(BinaryOp::Add, p, x))
}

/// An input `x` of integers.
fn integer_input(alloc: Global) -> Result<PortTypes, AllocError> {
    let x = Text::of(alloc, "x")?;
    Ok(PortTypes::of(vec![in alloc; (x, Ty::Int)]?))
}

/// Puts that tree and its input among parameters.
fn add_sum(alloc: Global, params: &mut Params) -> Result<(), AllocError> {
    params.types = integer_input(alloc)?;
    params.tree = Some(sum_tree(alloc)?);
    Ok(())
}

/// The actor of an expression with that tree, where p is 5.
fn sum(alloc: Global, out: &mut Answer) -> Result<Option<FlowActor>, AllocError> {
    let written = "class Expression; values p 5; ports x 1, output 1";
    let mut params = params(alloc, written, out)?;
    let added = add_sum(alloc, &mut params);
    out.note(added);
    let actor = started(alloc, &params);
    drop(params);
    actor
}

/// An expression of a literal, if it has a type.
fn literal(alloc: Global, number: i64) -> Result<Option<Expression>, AllocError> {
    let inputs = PortTypes::of(Vec::new(alloc));
    let values = Values::of(Vec::new(alloc));
    Expression::new(alloc, inputs, values, Expr::Int(number))
}

fn tell_literal(alloc: Global, written: &str, out: &mut Answer) {
    match out.or(literal(alloc, integer(written)), None) {
        Some(actor) => copy_fires(alloc, actor, "", out),
        None => out.text("not typed"),
    }
}

fn first_count(alloc: Global, initial: &str) -> Result<usize, AllocError> {
    let actor = SampleDelay::new(alloc, read_tokens(alloc, initial)?)?;
    let count = actor.first().len();
    drop(actor);
    Ok(count)
}

/// How many first tokens a delay has.
fn tell_first(alloc: Global, initial: &str, out: &mut Answer) {
    let count = out.or(first_count(alloc, initial), 0);
    out.number(alloc, count as i128);
}
