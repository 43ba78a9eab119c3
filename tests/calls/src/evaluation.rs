use crate::answer::Answer;
use crate::lists::{each_in, each_plain};
use crate::parsing::{cause, parsed};
use crate::token_texts::show_token;
use pt_expr::{Env, eval};
use pt_expr_type::{TypeEnv, type_of};
use pt_language::{EvalFault, Expr, Exprs, NamedExpr, NamedExprs, ParseFault};
use pt_value::{Text, Token};
use std::alloc::{AllocError, Global};

/// Answers a question about the values of expressions.
pub fn answer(alloc: Global, section: &str, question: &str, out: &mut Answer) {
    match section {
        "value" => tell_parsed(alloc, parsed(alloc, question), out),
        "value of the copy" => tell_parsed(alloc, copy_of_parsed(alloc, question), out),
        "bound again" => {
            let bound = bind_again(alloc, question);
            out.note(bound);
            out.text("bound");
        }
        "parts" => tell_parts(alloc, question, out),
        "fields" => tell_fields(alloc, question, out),
        _ => out.no_such_section(),
    }
}

/// The text of a value, or of a fault.
fn tell(alloc: Global, answer: Result<Token, EvalFault>, out: &mut Answer) {
    match answer {
        Ok(token) => {
            show_token(&token, out);
            drop(token);
        }
        Err(fault) => out.shown(alloc, &fault),
    }
}

/// What a tree comes to by these names, if it has a type.
fn value(alloc: Global, tree: &Expr, env: &Env, types: &TypeEnv, out: &mut Answer) {
    match type_of(alloc, tree, types) {
        Ok(_) => tell(alloc, eval(alloc, tree, env), out),
        Err(fault) => out.shown(alloc, &fault),
    }
}

/// What a tree comes to where no name is bound.
fn closed_value(alloc: Global, tree: &Expr, out: &mut Answer) {
    let env = Env::new(alloc);
    let types = TypeEnv::new(alloc);
    value(alloc, tree, &env, &types, out);
    drop(types);
    drop(env);
}

fn tell_parsed(alloc: Global, tree: Result<Expr, ParseFault>, out: &mut Answer) {
    match tree {
        Ok(tree) => {
            closed_value(alloc, &tree, out);
            drop(tree);
        }
        Err(fault) => out.text(cause(fault)),
    }
}

fn copy_of_parsed(alloc: Global, text: &str) -> Result<Expr, ParseFault> {
    let tree = parsed(alloc, text)?;
    let copy = tree.copy(alloc);
    drop(tree);
    Ok(copy?)
}

/// Binds a name to a number, and then to nothing, which tells that memory was ample.
fn bind_again(alloc: Global, name: &str) -> Result<(), AllocError> {
    let mut env = Env::new(alloc);
    env.bind(name, Some(Token::Int(5)))?;
    env.bind(name, None)
}

fn literal(word: &str) -> Expr {
    match word.parse::<i64>() {
        Ok(number) => Expr::Int(number),
        Err(_) => Expr::Bool(word == "true"),
    }
}

/// Literals, between blanks.
fn literals(alloc: Global, written: &str) -> Result<Exprs, AllocError> {
    Ok(Exprs::of(each_plain(alloc, written, " ", literal)?))
}

fn tell_parts(alloc: Global, written: &str, out: &mut Answer) {
    let parts = out.or(literals(alloc, written), Exprs::of(Vec::new(alloc)));
    let in_slice = parts.as_slice().len();
    tell_counts(alloc, parts.len(), in_slice, parts.is_empty(), out);
}

/// A field of a list of literals.
fn field(alloc: Global, written: &str) -> Result<NamedExpr, AllocError> {
    let (name, list) = written.split_once(" = ").unwrap_or((written, ""));
    let name = Text::of(alloc, name)?;
    let value = Expr::List(literals(alloc, list)?);
    Ok(NamedExpr { name, value })
}

fn tell_fields(alloc: Global, written: &str, out: &mut Answer) {
    let fields = NamedExprs::of(each_in(alloc, written, ", ", field, out));
    let in_slice = fields.as_slice().len();
    tell_counts(alloc, fields.len(), in_slice, fields.is_empty(), out);
}

/// How many there are: by the count, by the slice, and whether there are none.
fn tell_counts(alloc: Global, count: usize, in_slice: usize, is_empty: bool, out: &mut Answer) {
    out.number(alloc, count as i128);
    out.text(", in the slice ");
    out.number(alloc, in_slice as i128);
    out.either(is_empty, ", empty", ", not empty");
}
