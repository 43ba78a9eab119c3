use crate::answer::Answer;
use crate::written::plain;
use std::alloc::{AllocError, Global};
use std::io;
use std::rt::Files;

/// What answers the questions of tables.
pub trait Answers {
    /// Writes the answer to a question of a section of a table.
    fn answer(&self, alloc: Global, place: Place<'_>, question: &str, out: &mut Answer);
}

/// Where a question stands: its table, and the section of the table.
#[derive(Clone, Copy)]
pub struct Place<'t> {
    pub table: &'t str,
    pub section: &'t str,
}

/// How many rows a table has, and how many of them have another answer.
#[derive(Clone, Copy)]
struct Counted {
    rows: u32,
    amiss: u32,
}

/// The question and the answer of a row, `QUESTION -> ANSWER` or `ANSWER <- QUESTION`. A row without arrows is a script, which has
/// its answers within it, and so it is both.
fn parts(row: &str) -> (&str, &str) {
    match row.split_once(" -> ") {
        Some(parts) => parts,
        None => {
            let (wanted, question) = row.split_once(" <- ").unwrap_or((row, row));
            (question, wanted)
        }
    }
}

/// The answer to a question.
fn answered<A: Answers>(alloc: Global, answers: &A, place: Place<'_>, question: &str) -> Answer {
    let mut answer = Answer::new(alloc);
    answers.answer(alloc, place, question, &mut answer);
    answer.end();
    answer
}

/// Tells a row whose answer is another one.
fn tell_row<A: Answers>(
    alloc: Global,
    answers: &A,
    place: Place<'_>,
    row: &str,
    out: &mut Answer,
) -> Result<bool, AllocError> {
    let plain = plain(alloc, row)?;
    let (question, wanted) = parts(&plain);
    let answer = answered(alloc, answers, place, question);
    let is_right = answer.as_slice() == wanted.as_bytes();
    if !is_right {
        tell_amiss(place.section, row, &answer, out);
    }
    drop(answer);
    drop(plain);
    Ok(is_right)
}

/// Tells a row with the answer that came.
fn tell_amiss(section: &str, row: &str, answer: &Answer, out: &mut Answer) {
    out.text("[");
    out.text(section);
    out.text("] ");
    out.text(row);
    out.text("\n    but: ");
    out.append(answer);
    out.text("\n");
}

/// Tells each row of a table that has another answer.
fn tell_rows<A: Answers>(
    alloc: Global,
    answers: &A,
    name: &str,
    table: &str,
    out: &mut Answer,
) -> Result<Counted, AllocError> {
    let mut counted = Counted { rows: 0, amiss: 0 };
    let mut section = "";
    for line in table.lines() {
        if let Some(found) = section_of(line) {
            section = found;
        } else if !line.is_empty() && !line.starts_with("# ") {
            counted.rows = counted.rows.wrapping_add(1);
            let place = Place {
                table: name,
                section,
            };
            if !tell_row(alloc, answers, place, line, out)? {
                counted.amiss = counted.amiss.wrapping_add(1);
            }
        }
    }
    Ok(counted)
}

/// The section that begins with a line: its name stands between brackets.
fn section_of(line: &str) -> Option<&str> {
    let (section, _) = line.strip_prefix('[')?.split_once(']')?;
    Some(section)
}

/// What is told of a table: each row that has another answer, with that answer, and how many rows there are.
pub fn report<A: Answers>(
    alloc: Global,
    answers: &A,
    name: &str,
    table: &str,
) -> Result<String, AllocError> {
    let mut out = Answer::new(alloc);
    let counted = tell_rows(alloc, answers, name, table, &mut out);
    let told = String::from_utf8_lossy(alloc, out.as_slice());
    drop(out);
    let Counted { rows, amiss } = counted?;
    let told = told?;
    format!(in alloc; "{told}{name}: {rows} rows, {amiss} of them amiss\n")
}

/// Prints what is told of tables in files.
pub fn tell<R: Files + Print + Alloc<A = Global>, A: Answers>(
    rt: &R,
    answers: &A,
    names: &[&str],
) -> io::Result<()> {
    for name in names {
        let table = std::fs::read_to_string(rt, name)?;
        let report = report(rt.alloc(), answers, name, &table);
        drop(table);
        rt.print(report?)?;
    }
    Ok(())
}
