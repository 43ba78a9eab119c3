use crate::answer::Answer;
use crate::lists::each_plain;
use crate::numbers::{part, size, small};
use crate::scripts::{self, Subject, first_word, tell_child, tell_count, tell_tag, tell_whether};
use crate::tags;
use pt_wakes::{DueChildren, Wakes, wake_due};
use std::alloc::{AllocError, Global};

/// The wakes of some children, and which children are due.
#[derive(Drop)]
struct Children {
    wakes: Wakes,
    due: DueChildren,
}

/// Answers a script of calls on children, behind their wakes and depths.
pub fn answer(alloc: Global, section: &str, question: &str, out: &mut Answer) {
    match section {
        "wakes" | "due children" | "children that wake" => {
            let (written, script) = scripts::parts(question, out);
            match read_children(alloc, written) {
                Ok(children) => scripts::run(alloc, children, script, out),
                Err(fault) => out.note(Err(fault)),
            }
        }
        _ => out.no_such_section(),
    }
}

fn read_children(alloc: Global, written: &str) -> Result<Children, AllocError> {
    let wakes = each_plain(alloc, part(written, "wakes"), " ", tags::any)?;
    let depths = each_plain(alloc, part(written, "depths"), " ", small)?;
    Ok(Children {
        wakes: Wakes::new(alloc, &wakes)?,
        due: DueChildren::new(alloc, &depths)?,
    })
}

impl Subject for Children {
    fn call(&mut self, alloc: Global, name: &str, rest: &str, out: &mut Answer) {
        match name {
            "insert" | "remove" | "first" | "children" => {
                act_on_due(alloc, &mut self.due, name, size(rest), out);
            }
            "wake_due" => wake(self, rest, out),
            _ => act_on_wakes(alloc, &mut self.wakes, name, rest, out),
        }
    }

    fn copied(&self, alloc: Global) -> Result<Children, AllocError> {
        Ok(Children {
            wakes: self.wakes.copy(alloc)?,
            due: self.due.copy(alloc)?,
        })
    }
}

fn act_on_wakes(alloc: Global, wakes: &mut Wakes, name: &str, rest: &str, out: &mut Answer) {
    let (child, wake) = first_word(rest);
    match name {
        "least" => tell_tag(alloc, wakes.least(), out),
        "is_empty" => tell_whether(wakes.is_empty(), out),
        "len" => tell_count(alloc, wakes.len(), out),
        "due" => tell_child(alloc, wakes.due(tags::tag(rest)), out),
        "get" => get(alloc, wakes, size(child), out),
        "set" => set(wakes, size(child), wake, out),
        _ => scripts::no_such_call(out),
    }
}

fn get(alloc: Global, wakes: &Wakes, child: usize, out: &mut Answer) {
    if child < wakes.len() {
        tell_tag(alloc, wakes.get(child), out);
    } else {
        out.text(" = no such child");
    }
}

fn set(wakes: &mut Wakes, child: usize, wake: &str, out: &mut Answer) {
    if child < wakes.len() {
        wakes.set(child, tags::any(wake));
    } else {
        out.text(" = no such child");
    }
}

fn act_on_due(alloc: Global, due: &mut DueChildren, name: &str, child: usize, out: &mut Answer) {
    match name {
        "first" => tell_child(alloc, due.first(), out),
        "children" => tell_count(alloc, due.len(), out),
        _ if child >= due.len() => out.text(" = no such child"),
        "insert" => due.insert(child),
        _ => due.remove(child),
    }
}

fn wake(children: &mut Children, at: &str, out: &mut Answer) {
    if children.wakes.len() == children.due.len() {
        wake_due(&children.wakes, &mut children.due, tags::tag(at));
    } else {
        out.text(" = other children");
    }
}
