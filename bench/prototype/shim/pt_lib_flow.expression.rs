//! A stand-in of the same size: PortTypes 24, Values 24, Expr 32, Env 104, OneEach 24.
use crate::pt_flow_base::Params;
use crate::pt_firing::{Actor, Fires, Inputs, Need, OneEach, Outputs, Partial, Step, Values, strict_early};
use crate::pt_time::Tag;
use crate::pt_value::Token;
use crate::rstd::alloc::{AllocError, Global};
#[repr(C)]
pub struct Expression {
    inputs: Vec<u64>,
    values: Values,
    tree: [u64; 4],
    env: [u64; 13],
    places: OneEach,
}
impl Expression {
    pub fn start(alloc: Global, params: &Params) -> Result<Option<Expression>, AllocError> {
        Ok(Some(Expression {
            inputs: Vec::new(alloc),
            values: params.values.copy(alloc)?,
            tree: [0; 4],
            env: [0; 13],
            places: OneEach::of(alloc, 1)?,
        }))
    }
}
impl Fires for Expression {
    fn step(&mut self, _alloc: Global, _tag: Tag, _inputs: &Inputs<'_>) -> Step {
        Step::Done(Outputs::none(1))
    }
    fn copy(&self, alloc: Global) -> Result<Expression, AllocError> {
        Ok(Expression {
            inputs: Vec::new(alloc),
            values: self.values.copy(alloc)?,
            tree: self.tree,
            env: self.env,
            places: self.places.copy(alloc)?,
        })
    }
}
impl Actor for Expression {
    fn first(&self) -> &[Token] {
        &[]
    }
    fn need(&self) -> Need<'_> {
        Need::All(self.places.counts())
    }
    fn early(&self, alloc: Global, tag: Tag, partial: &Partial) -> Result<Partial, AllocError> {
        strict_early(self, 1, alloc, tag, partial)
    }
    fn next(&self) -> Option<Tag> {
        None
    }
}
