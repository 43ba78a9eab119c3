//! A stand-in: each Variable's name stands for it.
use crate::pt_chart::Names;
use crate::rstd::alloc::{AllocError, Global};
pub(crate) fn are_shown(alloc: Global, names: &Names) -> Result<Vec<bool>, AllocError> {
    let mut shown = Vec::new(alloc);
    for _ in names.variables.as_slice() {
        shown.push(true)?;
    }
    Ok(shown)
}
