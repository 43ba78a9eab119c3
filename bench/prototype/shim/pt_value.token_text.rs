#[repr(C)]
pub struct TokenText {
    text: Vec<u8>,
}
impl TokenText {
    pub fn of(alloc: Global, text: &str) -> Result<TokenText, AllocError> {
        Ok(TokenText { text: Vec::from_slice(alloc, text.as_bytes())? })
    }
    pub fn as_str(&self) -> &str {
        unsafe { core::str::from_utf8_unchecked(self.text.as_slice()) }
    }
    pub fn copy(&self, alloc: Global) -> Result<TokenText, AllocError> {
        TokenText::of(alloc, self.as_str())
    }
}
impl PartialEq for TokenText {
    fn eq(&self, other: &Self) -> bool {
        self.as_str() == other.as_str()
    }
}
use crate::rstd::alloc::{AllocError, Global};
