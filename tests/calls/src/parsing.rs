use crate::answer::Answer;
use crate::numbers::size;
use pt_expr_text::{parse, split};
use pt_language::{BinaryOp, Expr, ParseFault};
use std::alloc::{AllocError, Global};

/// Answers a question about the words and the trees of texts.
pub fn answer(alloc: Global, section: &str, question: &str, out: &mut Answer) {
    match section {
        "words" => tell_words(alloc, question, out),
        "repeated" => tell_repeated(alloc, question, 0, out),
        "limit" => {
            tell_repeated(alloc, question, 0, out);
            out.text(", one more ");
            tell_repeated(alloc, question, 1, out);
        }
        _ => about_tree(alloc, section, question, out),
    }
}

/// How many words a text begins with, and what is left behind them.
fn tell_words(alloc: Global, text: &str, out: &mut Answer) {
    match split(alloc, text) {
        Ok((words, left)) => {
            let count = words.len();
            drop(words);
            out.number(alloc, count as i128);
            out.either(left.is_empty(), "", ", then ");
            out.text(left);
        }
        Err(fault) => out.note(Err(fault)),
    }
}

/// Why a text has no tree, in a word.
pub fn cause(fault: ParseFault) -> &'static str {
    match fault {
        ParseFault::Syntax => "syntax",
        ParseFault::Deep => "deep",
        ParseFault::Memory => "memory",
    }
}

/// The tree of a text, without what is known of it.
pub fn parsed(alloc: Global, text: &str) -> Result<Expr, ParseFault> {
    parse(alloc, text)
}

fn about_tree(alloc: Global, section: &str, text: &str, out: &mut Answer) {
    match parsed(alloc, text) {
        Ok(tree) => {
            tell_tree(alloc, section, &tree, out);
            drop(tree);
        }
        Err(fault) => out.text(cause(fault)),
    }
}

fn tell_tree(alloc: Global, section: &str, tree: &Expr, out: &mut Answer) {
    match section {
        "tree" => out.text("read"),
        "operators" => tell_operators(tree, out),
        "literal" => tell_literal(alloc, tree, out),
        _ => out.no_such_section(),
    }
}

/// The sign of the operator of a tree, where two operands are joined.
fn operator(tree: &Expr) -> &'static str {
    match tree {
        Expr::Binary(op, _, _) => sign(*op),
        _ => "_",
    }
}

fn sign(op: BinaryOp) -> &'static str {
    match op {
        BinaryOp::Or => "||",
        BinaryOp::And => "&&",
        BinaryOp::Equal => "==",
        BinaryOp::Unequal => "!=",
        BinaryOp::Less => "<",
        BinaryOp::LessEqual => "<=",
        BinaryOp::Greater => ">",
        BinaryOp::GreaterEqual => ">=",
        BinaryOp::Add => "+",
        BinaryOp::Subtract => "-",
        BinaryOp::Multiply => "*",
        BinaryOp::Divide => "/",
        BinaryOp::Remainder => "%",
    }
}

/// The operator of a tree, and between brackets those of its two operands.
fn tell_operators(tree: &Expr, out: &mut Answer) {
    match tree {
        Expr::Binary(op, first, second) => {
            out.text(sign(*op));
            out.text("(");
            out.text(operator(first));
            out.text(", ");
            out.text(operator(second));
            out.text(")");
        }
        _ => out.text("no operator"),
    }
}

fn tell_literal(alloc: Global, tree: &Expr, out: &mut Answer) {
    match tree {
        Expr::Int(n) => out.number(alloc, i128::from(*n)),
        Expr::Negate(_) => out.text("a negation"),
        _ => out.text("another tree"),
    }
}

/// A text that stands so often before a second, and a third behind it as often.
fn around(
    alloc: Global,
    count: usize,
    before: &str,
    middle: &str,
    behind: &str,
) -> Result<String, AllocError> {
    let mut text = before.repeat(alloc, count)?;
    text.push_str(middle)?;
    text.push_str(&behind.repeat(alloc, count)?)?;
    Ok(text)
}

/// Such a text, which stands some times more: `64 "(" "1" ")"`.
pub fn repeated(alloc: Global, written: &str, more: usize) -> Result<String, AllocError> {
    let (count, rest) = written.split_once(" \"").unwrap_or((written, ""));
    let (before, rest) = rest.split_once("\" \"").unwrap_or((rest, ""));
    let (middle, behind) = rest.split_once("\" \"").unwrap_or((rest, ""));
    let count = size(count).wrapping_add(more);
    around(alloc, count, before, middle, behind.trim_end_matches('"'))
}

/// Whether such a text has a tree, and why not.
fn tell_repeated(alloc: Global, written: &str, more: usize, out: &mut Answer) {
    match repeated(alloc, written, more) {
        Ok(text) => about_tree(alloc, "tree", &text, out),
        Err(fault) => out.note(Err(fault)),
    }
}
