use crate::answer::Answer;
use crate::lists::{each, each_plain};
use crate::token_texts::show_token;
use pt_value::{Fields, FieldsFault, Items, Text, Token, TokenText, is_name};
use std::alloc::{AllocError, Global};

/// Answers a question about tokens, which are written without the parser of expressions.
pub fn answer(alloc: Global, section: &str, question: &str, out: &mut Answer) {
    match section {
        "name" => out.either(is_name(question.as_bytes()), "yes", "no"),
        "fields" | "no such field" | "no record" => about_record(alloc, section, question, out),
        _ => about_tokens(alloc, section, question, out),
    }
}

fn integer(written: &str) -> Token {
    Token::Int(crate::numbers::integer(written))
}

/// A token that is no array of other kinds: `int 7`, `bool true`, `text abc`, `ints 1 2` or `named "y" "x"`.
fn part(alloc: Global, written: &str) -> Result<Token, FieldsFault> {
    let (kind, rest) = written.split_once(' ').unwrap_or((written, ""));
    match kind {
        "int" => Ok(integer(rest)),
        "bool" => Ok(Token::Bool(rest == "true")),
        "text" => Ok(Token::Text(TokenText::of(alloc, rest)?)),
        "ints" => Ok(Token::Array(Items::of(each_plain(alloc, rest, " ", integer)?))),
        _ => Ok(Token::Record(fields(alloc, rest)?)),
    }
}

/// A token: of parts between semicolons behind `each` their array.
fn token(alloc: Global, written: &str) -> Result<Token, FieldsFault> {
    match written.strip_prefix("each ") {
        Some(parts) => Ok(Token::Array(Items::of(each(alloc, parts, "; ", part)?))),
        None => part(alloc, written),
    }
}

/// Names between quotes, of which the first has the value 1, the next one 2, and so on.
fn named(alloc: Global, written: &str) -> Result<Vec<(Text, Token)>, AllocError> {
    let mut fields = Vec::new(alloc);
    let mut value = 0i64;
    for (place, name) in written.split('"').enumerate() {
        if place % 2 == 1 {
            value = value.wrapping_add(1);
            fields.push((Text::of(alloc, name)?, Token::Int(value)))?;
        }
    }
    Ok(fields)
}

fn fields(alloc: Global, written: &str) -> Result<Fields, FieldsFault> {
    Fields::of(alloc, named(alloc, written)?)
}

/// Answers a question about the tokens on both sides of `and`, or about the one token.
fn about_tokens(alloc: Global, section: &str, question: &str, out: &mut Answer) {
    match each(alloc, question, " and ", token) {
        Ok(tokens) => {
            tell_tokens(alloc, section, &tokens, out);
            drop(tokens);
        }
        Err(fault) => out.shown(alloc, &fault),
    }
}

fn tell_tokens(alloc: Global, section: &str, tokens: &[Token], out: &mut Answer) {
    match (section, tokens) {
        ("printed", [token]) => {
            out.text("> ");
            show_token(token, out);
        }
        ("size", [token]) => out.number(alloc, i128::from(token.size())),
        ("copy", [token]) => tell_copy(alloc, token, out),
        ("same", [first, second]) => out.either(first.same(second), "same", "another"),
        _ => out.text("no such section"),
    }
}

fn tell_copy(alloc: Global, token: &Token, out: &mut Answer) {
    match token.copy(alloc) {
        Ok(copy) => {
            out.either(token.same(&copy), "same", "another");
            drop(copy);
        }
        Err(fault) => out.note(Err(fault)),
    }
}

/// Answers a question about the record of some names, or about a field of it: `x of "y" "x"`.
fn about_record(alloc: Global, section: &str, question: &str, out: &mut Answer) {
    let (name, names) = question.split_once(" of ").unwrap_or(("", question));
    match fields(alloc, names) {
        Ok(fields) => {
            tell_record(alloc, section, name, &fields, out);
            drop(fields);
        }
        Err(fault) => out.shown(alloc, &fault),
    }
}

fn tell_record(alloc: Global, section: &str, name: &str, fields: &Fields, out: &mut Answer) {
    match section {
        "fields" => tell_fields(alloc, fields, out),
        "no such field" => out.either(fields.get(name).is_none(), "none", "one"),
        _ => out.text("a record"),
    }
}

/// The names of fields in their order, each of which finds its own value.
fn tell_fields(alloc: Global, fields: &Fields, out: &mut Answer) {
    out.number(alloc, fields.len() as i128);
    for field in fields.as_slice() {
        let name = field.name.as_str();
        let is_found = match fields.get(name) {
            Some(token) => token.same(&field.value),
            None => false,
        };
        out.either(is_found, " ", " not found: ");
        out.text(name);
    }
}
