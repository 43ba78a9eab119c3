use crate::answer::Answer;
use crate::parsing::{cause, repeated};
use pt_expr_print::{print, reread};
use pt_expr_text::parse;
use pt_language::{Expr, ParseFault};
use pt_value::Text;
use std::alloc::Global;

/// Answers a question about the texts that trees print as.
pub fn answer(alloc: Global, section: &str, question: &str, out: &mut Answer) {
    match section {
        "printed" => tell_printed(alloc, question, out),
        "depth" => {
            tell_depth(alloc, question, 0, out);
            out.text("; one more: ");
            tell_depth(alloc, question, 1, out);
        }
        _ => out.no_such_section(),
    }
}

/// The printed text of a tree.
fn printed_tree(alloc: Global, tree: Expr) -> Result<Text, ParseFault> {
    let text = print(alloc, &tree);
    drop(tree);
    Ok(text?)
}

/// The printed text of the tree that a text reads as.
fn printed(alloc: Global, text: &str) -> Result<Text, ParseFault> {
    printed_tree(alloc, parse(alloc, text)?)
}

/// The same by way of the tree that the printed text reads as.
fn printed_again(alloc: Global, text: &str) -> Result<Text, ParseFault> {
    let tree = parse(alloc, text)?;
    let again = reread(alloc, &tree);
    drop(tree);
    printed_tree(alloc, again?)
}

/// A printed text, or in its place the word for it, or why there is none.
fn tell(printed: Result<Text, ParseFault>, word: Option<&str>, out: &mut Answer) {
    match printed {
        Ok(text) => out.text(word.unwrap_or(text.as_str())),
        Err(fault) => out.text(cause(fault)),
    }
}

/// The printed text, and the one that is printed again, where that is another.
fn tell_printed(alloc: Global, text: &str, out: &mut Answer) {
    tell(printed(alloc, text), None, out);
    let mut again = Answer::new(alloc);
    tell(printed_again(alloc, text), None, &mut again);
    if out.as_slice() != again.as_slice() {
        out.text(" but again ");
        out.append(&again);
    }
}

/// What comes of a text, without the text.
fn tell_depth(alloc: Global, written: &str, more: usize, out: &mut Answer) {
    let text = repeated(alloc, written, more);
    let text = out.or(text, String::new(alloc));
    tell(printed(alloc, &text), Some("printed"), out);
    out.text(", again ");
    tell(printed_again(alloc, &text), Some("printed"), out);
}
