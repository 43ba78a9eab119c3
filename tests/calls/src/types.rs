use crate::answer::Answer;
use crate::lists::each;
use crate::numbers::small;
use pt_types::{ElementTy, RecordTy, Ty, below, join, print};
use pt_value::{FieldsFault, Text};
use std::alloc::{AllocError, Global};

/// Answers a question about types, each written as ports declare it.
pub fn answer(alloc: Global, section: &str, question: &str, out: &mut Answer) {
    match section {
        "written array" => written_array(alloc, question, out),
        "record" => tell_record(alloc, question, out),
        "record of so many fields" => tell_wide(alloc, question, out),
        _ => about_types(alloc, section, question, out),
    }
}

/// A type without parts.
pub fn base(text: &str) -> Ty {
    match text {
        "unknown" => Ty::Unknown,
        "int" => Ty::Int,
        "boolean" => Ty::Boolean,
        "string" => Ty::Words,
        _ => Ty::General,
    }
}

/// Arrays of a type without parts in one another.
fn array(alloc: Global, text: &str) -> Result<Ty, AllocError> {
    let depth = text.split('(').count().saturating_sub(1);
    let (_, element) = text.rsplit_once('(').unwrap_or(("", text));
    let mut ty = base(element.trim_end_matches(')'));
    for _ in 0..depth {
        ty = Ty::array(alloc, ty)?;
    }
    Ok(ty)
}

fn field(alloc: Global, written: &str) -> Result<(Text, Ty), AllocError> {
    let (name, text) = written.split_once(" = ").unwrap_or(("", written));
    Ok((Text::of(alloc, name)?, base(text)))
}

/// The fields of a written record. They are made in the opposite order, since that has no meaning.
fn fields(alloc: Global, written: &str) -> Result<Vec<(Text, Ty)>, AllocError> {
    let mut fields = each(alloc, written, ", ", field)?;
    fields.reverse();
    Ok(fields)
}

/// Whether the fields make a record.
fn tell_record(alloc: Global, written: &str, out: &mut Answer) {
    let fields = out.or(fields(alloc, written), Vec::new(alloc));
    let is_record = RecordTy::of(alloc, fields).is_ok();
    out.either(is_record, "yes", "no");
}

fn record(alloc: Global, fields: Vec<(Text, Ty)>) -> Result<Ty, FieldsFault> {
    Ok(Ty::record(RecordTy::of(alloc, fields)?))
}

/// The type of a text: one without parts, arrays of such a type in one another, or a record of such types.
fn ty(alloc: Global, text: &str) -> Result<Ty, FieldsFault> {
    match text.strip_prefix('{') {
        Some(rest) => record(alloc, fields(alloc, rest.trim_end_matches('}'))?),
        None => Ok(array(alloc, text)?),
    }
}

/// Writes the text of a type.
pub fn show(ty: &Ty, out: &mut Answer) {
    let printed = print(ty, out.bytes());
    out.note(printed);
}

/// Answers a question about the types on both sides of `and`, or about the one type.
fn about_types(alloc: Global, section: &str, question: &str, out: &mut Answer) {
    match each(alloc, question, " and ", ty) {
        Ok(types) => {
            tell_types(alloc, section, &types, out);
            drop(types);
        }
        Err(fault) => out.shown(alloc, &fault),
    }
}

fn tell_types(alloc: Global, section: &str, types: &[Ty], out: &mut Answer) {
    match types {
        [first, second] if section == "order and join" => tell_pair(alloc, first, second, out),
        [ty] => tell_type(section, ty, out),
        _ => out.no_such_section(),
    }
}

fn tell_type(section: &str, ty: &Ty, out: &mut Answer) {
    match section {
        "printed" => show(ty, out),
        "printed behind" => {
            out.text("> ");
            show(ty, out);
        }
        "proper" => out.either(ty.is_proper(), "yes", "no"),
        _ => out.no_such_section(),
    }
}

fn tell_join(alloc: Global, first: &Ty, second: &Ty, out: &mut Answer) {
    let joined = out.or(join(alloc, first, second), Ty::Unknown);
    out.text(", ");
    show(&joined, out);
    drop(joined);
}

/// Whether the first type is below the second, and their join, taken either way.
fn tell_pair(alloc: Global, first: &Ty, second: &Ty, out: &mut Answer) {
    out.either(below(first, second), "below", "not below");
    tell_join(alloc, first, second, out);
    let mut other = Answer::new(alloc);
    tell_join(alloc, second, first, &mut other);
    if !out.as_slice().ends_with(other.as_slice()) {
        out.text(" but the other way");
        out.append(&other);
    }
    drop(other);
}

fn numbered_field(alloc: Global, number: u32) -> Result<(Text, Ty), AllocError> {
    let name = format!(in alloc; "f{number}")?;
    Ok((Text::of(alloc, &name)?, Ty::Int))
}

/// So many fields of integers.
fn numbered_fields(alloc: Global, count: u32) -> Result<Vec<(Text, Ty)>, AllocError> {
    let mut fields = Vec::new(alloc);
    for number in 0..count {
        fields.push(numbered_field(alloc, number)?)?;
    }
    Ok(fields)
}

/// A record of so many integers.
fn wide(alloc: Global, count: u32) -> Result<Ty, FieldsFault> {
    record(alloc, numbered_fields(alloc, count)?)
}

/// Whether a record of so many integers is proper.
fn tell_wide(alloc: Global, count: &str, out: &mut Answer) {
    match wide(alloc, small(count)) {
        Ok(ty) => {
            out.either(ty.is_proper(), "yes", "no");
            drop(ty);
        }
        Err(fault) => out.shown(alloc, &fault),
    }
}

fn array_of(alloc: Global, element: &str) -> Result<Ty, AllocError> {
    Ok(Ty::Array(ElementTy::of(alloc, base(element))?))
}

/// An array that is written so, which the call for arrays makes general: its order and its text.
fn written_array(alloc: Global, element: &str, out: &mut Answer) {
    let written = out.or(array_of(alloc, element), Ty::Unknown);
    out.either(below(&Ty::General, &written), "above", "not above");
    out.text(" general, ");
    out.either(below(&written, &Ty::Int), "below", "not below");
    out.text(" int, ");
    show(&written, out);
    drop(written);
}
