//! What pt_run's loop of reactions uses of pt_trees.
use crate::pt_firing::{Blocked, Place};
use crate::pt_time::Tag;
use crate::pt_value::Token;
use crate::rstd::vec::Vec;

#[repr(C)]
pub struct DeJob {
    pub stop: Option<u64>,
    pub inputs: Vec<Vec<(Tag, Token)>>,
}

#[repr(u8)]
pub enum Ended {
    Iterations,
    Inputs,
    Stop,
    Idle,
    Deadlock,
    Fault(Place),
    Full(Blocked),
    Spent(u64),
}
