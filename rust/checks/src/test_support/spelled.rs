//! Parses bytes from hexadecimal digits, for the tables of tests.
use crate::host::Fail;
use crate::kit::alloc::Global;
use crate::kit::prelude::Vec;

/// Parses hexadecimal digits, with white space between them.
pub fn bytes_of(alloc: Global, digits: &str) -> Result<Vec<u8>, Fail> {
    let mut pairs = Vec::new(alloc);
    for byte in digits.as_bytes() {
        if !byte.is_ascii_whitespace() {
            pairs.push(*byte)?;
        }
    }
    Ok(crate::host::hex::decode(alloc, pairs.as_slice())?)
}
