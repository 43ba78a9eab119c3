//! Tokens as tables write them: `7`, `true`, words as `"or"`, and arrays of integers without blanks, as `{1,2}`.

use crate::answer::Answer;
use crate::lists::{each, each_in, each_plain};
use crate::numbers::integer;
use pt_firing::{Outputs, Tokens};
use pt_value::{Items, Token, TokenText, print};
use std::alloc::{AllocError, Global};

/// A number or a truth value.
fn number_or_truth(word: &str) -> Token {
    match word {
        "true" => Token::Bool(true),
        "false" => Token::Bool(false),
        _ => Token::Int(integer(word)),
    }
}

fn read_array(alloc: Global, written: &str) -> Result<Token, AllocError> {
    let items = each_plain(alloc, written, ",", number_or_truth)?;
    Ok(Token::Array(Items::of(items)))
}

/// A token.
pub fn read_token(alloc: Global, word: &str) -> Result<Token, AllocError> {
    match word.strip_prefix('{') {
        Some(rest) => read_array(alloc, rest.trim_end_matches('}')),
        None => match word.strip_prefix('"') {
            Some(rest) => TokenText::of(alloc, rest.trim_end_matches('"')).map(Token::Text),
            None => Ok(number_or_truth(word)),
        },
    }
}

/// Tokens, between blanks.
pub fn read_tokens(alloc: Global, written: &str) -> Result<Tokens, AllocError> {
    each(alloc, written, " ", read_token).map(Tokens::of)
}

/// The same, or another where memory is wanting, which the answer keeps in mind.
pub fn token(alloc: Global, word: &str, out: &mut Answer) -> Token {
    out.or(read_token(alloc, word), Token::Bool(false))
}

/// The same, or none where memory is wanting, which the answer keeps in mind.
pub fn tokens(alloc: Global, written: &str, out: &mut Answer) -> Tokens {
    out.or(read_tokens(alloc, written), Tokens::new())
}

/// Lists of tokens, between slashes. Of nothing there is no list.
pub fn lists(alloc: Global, written: &str, out: &mut Answer) -> Vec<Tokens> {
    each_in(alloc, written, "/", read_tokens, out)
}

/// Writes the text of a token.
pub fn show_token(token: &Token, out: &mut Answer) {
    let printed = print(token, out.bytes());
    out.note(printed);
}

/// Writes the texts of tokens, each before a blank, and a bar behind them.
pub fn show(tokens: &[Token], out: &mut Answer) {
    for token in tokens {
        show_token(token, out);
        out.text(" ");
    }
    out.text("|");
}

/// Writes the texts of the tokens of each port.
pub fn show_ports(outputs: &Outputs, out: &mut Answer) {
    for port in 0..outputs.ports() {
        show(outputs.list(port), out);
    }
}
