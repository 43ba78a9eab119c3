//! A stand-in of the same size: Function 32, Counts 24.
use crate::pt_firing::{Actor, Counts, Fires, Inputs, Need, Outputs, Partial, Ports, Step, Values, strict_early};
use crate::pt_time::Tag;
use crate::pt_value::Token;
use crate::rstd::alloc::{AllocError, Global};
use crate::rstd::prelude::*;
#[repr(C)]
pub struct DataActor {
    tag: u64,
    function: Vec<u64>,
    needed: Counts,
}
impl DataActor {
    pub fn started(alloc: Global, class: &str, _values: &Values, _ports: &Ports) -> Result<Option<DataActor>, AllocError> {
        if class != "Discard" {
            return Ok(None);
        }
        Ok(Some(DataActor { tag: 3, function: Vec::new(alloc), needed: Counts::of(rvec![alloc; 1]?) }))
    }
    pub fn rates(&self, alloc: Global) -> Result<Counts, AllocError> {
        self.needed.copy(alloc)
    }
    pub fn outputs(&self) -> usize {
        1
    }
    pub fn begins(&self) -> bool {
        false
    }
    pub fn whole(&self) -> bool {
        false
    }
    pub fn is_steady(&self) -> bool {
        true
    }
    pub fn is_barrier(&self) -> bool {
        false
    }
}
impl Fires for DataActor {
    fn step(&mut self, _alloc: Global, _tag: Tag, _inputs: &Inputs<'_>) -> Step {
        Step::Done(Outputs::none(1))
    }
    fn copy(&self, alloc: Global) -> Result<DataActor, AllocError> {
        Ok(DataActor { tag: self.tag, function: Vec::new(alloc), needed: self.needed.copy(alloc)? })
    }
}
impl Actor for DataActor {
    fn first(&self) -> &[Token] {
        &[]
    }
    fn need(&self) -> Need<'_> {
        Need::All(&self.needed)
    }
    fn early(&self, alloc: Global, tag: Tag, partial: &Partial) -> Result<Partial, AllocError> {
        strict_early(self, 1, alloc, tag, partial)
    }
    fn next(&self) -> Option<Tag> {
        None
    }
}
