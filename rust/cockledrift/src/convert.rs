//! Reading a file of any version, then writing it as v8.

#![forbid(unsafe_code)]

use crate::answer::told;
use crate::{library, Answer};

/// Reads a file, v3 to v8, to the lent `sheet`, then writes it as a v8 file to
/// the front of the lent `out`.
///
/// The answer has the bytes of the v8 file, and version 8. It is refused as
/// [`read`](crate::read) refuses the file, with both buffers as they were; or
/// because the v8 file is too long (16) or `out` too small for it (11): then the
/// sheet stands and `out` is as it was. 11 does not say which buffer is too small:
/// [`read`](crate::read) alone tells.
///
/// Of a v8 file the new one is never longer, so an `out` as long as the file suffices.
///
/// ```
/// let file = b"Survex 3D Image File\nv3\nA\n@0\n\0";
/// let (mut sheet, mut out) = ([0; 10], [0; 32]);
/// let done = cockledrift::convert(file, &mut sheet, &mut out)?;
/// assert_eq!((done.bytes, done.version), (32, 8));
/// assert_eq!(&out, b"Survex 3D Image File\nv8\nA\n@0\n\0\0\0");
/// # Ok::<(), cockledrift::Refusal>(())
/// ```
pub fn convert(file: &[u8], sheet: &mut [u8], out: &mut [u8]) -> Answer {
    told(library::convert(file, sheet, out))
}
