//! What the scripts of all cores have in common: these functions see a core by its trait alone.

use crate::answer::Answer;
use crate::library::place;
use crate::lists::each_in;
use crate::token_texts::{show, show_ports};
use pt_core::Core;
use pt_firing::{Inputs, Outputs};
use pt_time::Tag;
use std::alloc::{AllocError, Global};

/// A core, and the child that it asked last.
#[derive(Drop)]
pub struct Asked<C> {
    pub core: C,
    pub child: u32,
}

/// The same in another core.
pub fn copied<C: Core>(alloc: Global, asked: &Asked<C>) -> Result<Asked<C>, AllocError> {
    let core = asked.core.copy(alloc)?;
    Ok(Asked {
        core,
        child: asked.child,
    })
}

/// Begins at a tag, on the tokens of the own inputs: `4 5/-`.
pub fn begin<C: Core>(alloc: Global, core: &mut C, tag: Tag, written: &str, out: &mut Answer) {
    let lists = each_in(alloc, written, "/", place, out);
    out.note(core.begin(alloc, tag, &Inputs::of(&lists)));
    drop(lists);
}

/// What a core asks of a child.
pub fn tell_asked(alloc: Global, what: &str, child: u32, out: &mut Answer) {
    out.text(what);
    out.number(alloc, i128::from(child));
}

/// The inputs of the child that was asked to fire.
pub fn show_lent<C: Core>(core: &C, out: &mut Answer) {
    let inputs = core.lent();
    out.text(":");
    for number in 0..inputs.places() {
        out.text(" ");
        show(inputs.list(number), out);
    }
}

/// The own outputs.
pub fn finish<C: Core>(alloc: Global, core: &mut C, out: &mut Answer) {
    let outputs = out.or(core.finish(alloc), Outputs::none(0));
    out.text(" = ");
    show_ports(&outputs, out);
    drop(outputs);
}
