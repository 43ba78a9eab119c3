use crate::rstd::alloc::AllocError;
pub(crate) fn write_int(n: i64, out: &mut Vec<u8>) -> Result<(), AllocError> {
    out.extend_from_slice(&n.to_le_bytes())
}
pub(crate) fn write_bool(b: bool, out: &mut Vec<u8>) -> Result<(), AllocError> {
    out.extend_from_slice(if b { b"true" } else { b"false" })
}
pub(crate) fn write_quoted(text: &str, out: &mut Vec<u8>) -> Result<(), AllocError> {
    out.extend_from_slice(text.as_bytes())
}
pub(crate) fn write_separator(index: usize, out: &mut Vec<u8>) -> Result<(), AllocError> {
    if index > 0 {
        out.extend_from_slice(b", ")?;
    }
    Ok(())
}
/// No report here has another token than an integer, and these go another way.
pub fn print(_token: &crate::pt_value::Token, out: &mut Vec<u8>) -> Result<(), AllocError> {
    out.extend_from_slice(b"?")
}
