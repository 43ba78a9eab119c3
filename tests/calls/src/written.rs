use std::alloc::{AllocError, Global};

/// Adds a text in which `¶` stands for a line feed.
fn add(out: &mut String, text: &str) -> Result<(), AllocError> {
    for letter in text.chars() {
        out.push(if letter == '¶' { '\n' } else { letter })?;
    }
    Ok(())
}

/// The character of a number in hexadecimal digits; the sign of a broken text where there is none.
fn character(digits: &str) -> char {
    match u32::from_str_radix(digits, 16) {
        Ok(number) => char::from_u32(number).unwrap_or(char::REPLACEMENT_CHARACTER),
        Err(_) => char::REPLACEMENT_CHARACTER,
    }
}

/// Adds what stands behind a `⟨`: the character of a number, and a text.
fn add_character(out: &mut String, part: &str) -> Result<(), AllocError> {
    let (digits, rest) = part.split_once('⟩').unwrap_or((part, ""));
    out.push(character(digits))?;
    add(out, rest)
}

/// The text that a table writes so: `¶` stands for a line feed, and `⟨e9⟩` for the character of this number.
pub fn plain(alloc: Global, written: &str) -> Result<String, AllocError> {
    let mut out = String::new(alloc);
    let (first, rest) = written.split_once('⟨').unwrap_or((written, ""));
    add(&mut out, first)?;
    if !rest.is_empty() {
        for part in rest.split('⟨') {
            add_character(&mut out, part)?;
        }
    }
    Ok(out)
}
