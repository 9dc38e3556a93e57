//! Buffers as long as they have to be.

#![forbid(unsafe_code)]

use crate::{Answer, Refusal};

/// What a call writes, in a buffer of its own: lent no bytes, the call refuses
/// with the length needed.
pub(crate) fn filled(call: impl Fn(&mut [u8]) -> Answer) -> Result<Vec<u8>, Refusal> {
    let mut buffer = Vec::new();
    if let Err(refusal) = call(&mut buffer) {
        buffer.resize(refusal.needed().ok_or(refusal)?, 0);
        call(&mut buffer)?;
    }
    Ok(buffer)
}
