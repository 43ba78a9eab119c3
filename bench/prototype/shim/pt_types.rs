//! A stand-in for types: those without parts.
use crate::pt_value::Token;
use crate::rstd::alloc::{AllocError, Global};
#[repr(u8)]
pub enum Ty {
    Unknown,
    Int,
    Boolean,
    Words,
    /// Of the size of the real one, which has parts.
    General([u64; 3]),
}
impl Ty {
    pub fn copy(&self, _alloc: Global) -> Result<Ty, AllocError> {
        Ok(match self {
            Ty::Unknown => Ty::Unknown,
            Ty::Int => Ty::Int,
            Ty::Boolean => Ty::Boolean,
            Ty::Words => Ty::Words,
            Ty::General(parts) => Ty::General(*parts),
        })
    }
}
pub fn is_of(token: &Token, ty: &Ty) -> bool {
    match (token, ty) {
        (Token::Int(_), Ty::Int) | (Token::Bool(_), Ty::Boolean) | (Token::Text(_), Ty::Words) => true,
        (_, Ty::General(_)) => true,
        _ => false,
    }
}
