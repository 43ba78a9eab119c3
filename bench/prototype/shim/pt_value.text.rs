const FEW: usize = 16;
#[derive(Clone, Copy)]
#[repr(C)]
struct ArrayString {
    bytes: [u8; FEW],
    len: usize,
}
#[repr(u8)]
enum Held {
    Few(ArrayString),
    Many(Vec<u8>),
}
#[repr(C)]
pub struct Text {
    held: Held,
}
fn many(alloc: Global, text: &str) -> Result<Text, AllocError> {
    Ok(Text { held: Held::Many(Vec::from_slice(alloc, text.as_bytes())?) })
}
impl Text {
    pub fn of(alloc: Global, text: &str) -> Result<Text, AllocError> {
        if text.len() > FEW {
            return many(alloc, text);
        }
        let mut few = ArrayString { bytes: [0; FEW], len: text.len() };
        unsafe { core::ptr::copy_nonoverlapping(text.as_ptr(), few.bytes.as_mut_ptr(), text.len()) };
        Ok(Text { held: Held::Few(few) })
    }
    #[inline]
    pub fn as_str(&self) -> &str {
        unsafe {
            match &self.held {
                Held::Few(few) => core::str::from_utf8_unchecked(core::slice::from_raw_parts(few.bytes.as_ptr(), few.len)),
                Held::Many(bytes) => core::str::from_utf8_unchecked(bytes.as_slice()),
            }
        }
    }
    pub fn copy(&self, alloc: Global) -> Result<Text, AllocError> {
        match &self.held {
            Held::Few(few) => Ok(Text { held: Held::Few(*few) }),
            Held::Many(_) => many(alloc, self.as_str()),
        }
    }
}
impl PartialEq for Text {
    fn eq(&self, other: &Self) -> bool {
        self.as_str() == other.as_str()
    }
}
use crate::rstd::alloc::{AllocError, Global};
