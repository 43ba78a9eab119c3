//! Lists as tables write them: parts with a mark between them.

use crate::answer::Answer;
use std::alloc::{AllocError, Global};

/// What a function makes of each part of a text. A text of blanks has no parts.
pub fn each<T: Drop, E: From<AllocError> + Drop, F: Fn(Global, &str) -> Result<T, E>>(
    alloc: Global,
    written: &str,
    between: &str,
    read: F,
) -> Result<Vec<T>, E> {
    let mut values = Vec::new(alloc);
    if !written.trim().is_empty() {
        for part in written.trim().split(between) {
            let value = read(alloc, part)?;
            values.push(value).map_err(AllocError::from)?;
        }
    }
    Ok(values)
}

/// The same of a function that needs no memory.
pub fn each_plain<T: Drop, F: Fn(&str) -> T>(
    alloc: Global,
    written: &str,
    between: &str,
    read: F,
) -> Result<Vec<T>, AllocError> {
    let mut values = Vec::new(alloc);
    if !written.trim().is_empty() {
        for part in written.trim().split(between) {
            values.push(read(part))?;
        }
    }
    Ok(values)
}

/// What a function makes of each part of a text, or nothing where memory is wanting, which the answer keeps in mind.
pub fn each_in<T: Drop, F: Fn(Global, &str) -> Result<T, AllocError>>(
    alloc: Global,
    written: &str,
    between: &str,
    read: F,
    out: &mut Answer,
) -> Vec<T> {
    out.or(each(alloc, written, between, read), Vec::new(alloc))
}
