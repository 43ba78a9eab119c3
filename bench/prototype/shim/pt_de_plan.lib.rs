//! What is planned, without the planning: `main.rs` makes the plan by hand.
mod inside;

use crate::rstd::prelude::*;

pub use self::inside::DeInside;

/// The inside of a composite, and the depth of each child.
#[repr(C)]
pub struct DePlan {
    pub inside: DeInside,
    pub depths: Vec<u32>,
}
