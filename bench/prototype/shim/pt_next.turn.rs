//! Of the turns of a top, what its loop of reactions uses.
use crate::pt_firing::{Place, RunFault};
use crate::pt_node::Node;
use crate::rstd::alloc::{AllocError, Global};

pub fn past_limit(alloc: Global, top: &Node, fired: u64) -> Result<Place, AllocError> {
    Ok(Place { path: top.path.copy(alloc)?, firing: fired, kind: RunFault::TimeLimit })
}
