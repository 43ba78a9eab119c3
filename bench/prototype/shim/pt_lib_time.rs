//! A stand-in of the same size: the token that is kept, and the places.
use crate::pt_firing::{Actor, Fires, Inputs, Need, OneEach, Outputs, Partial, Step, strict_early};
use crate::pt_flow_base::Params;
use crate::pt_time::Tag;
use crate::pt_value::Token;
use crate::rstd::alloc::{AllocError, Global};
use crate::rstd::prelude::*;
#[repr(C)]
pub struct TimeActor {
    tag: u64,
    kept: Option<Token>,
    places: OneEach,
}
impl TimeActor {
    pub fn started(alloc: Global, params: &Params) -> Result<Option<TimeActor>, AllocError> {
        if params.class.as_str() != "Current" {
            return Ok(None);
        }
        Ok(Some(TimeActor { tag: 1, kept: None, places: OneEach::of(alloc, 1)? }))
    }
    pub fn outputs(&self) -> usize {
        1
    }
    pub fn begins(&self) -> bool {
        false
    }
    pub fn whole(&self) -> bool {
        false
    }
    pub fn is_steady(&self) -> bool {
        true
    }
    pub fn is_strict(&self) -> bool {
        true
    }
}
impl Fires for TimeActor {
    fn step(&mut self, _alloc: Global, _tag: Tag, _inputs: &Inputs<'_>) -> Step {
        Step::Done(Outputs::none(1))
    }
    fn copy(&self, alloc: Global) -> Result<TimeActor, AllocError> {
        Ok(TimeActor { tag: self.tag, kept: None, places: self.places.copy(alloc)? })
    }
}
impl Actor for TimeActor {
    fn first(&self) -> &[Token] {
        &[]
    }
    fn need(&self) -> Need<'_> {
        Need::All(self.places.counts())
    }
    fn early(&self, alloc: Global, tag: Tag, partial: &Partial) -> Result<Partial, AllocError> {
        strict_early(self, 1, alloc, tag, partial)
    }
    fn next(&self) -> Option<Tag> {
        None
    }
}
