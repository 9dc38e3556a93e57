//! SHA-256 (FIPS 180-4), of bytes at once and of bytes that come in parts.

#![forbid(unsafe_code)]

use crate::library::{self, Block, Digest, Running, BLOCK, DIGEST, RUNNING_NUMBERS};

/// The SHA-256 of bytes.
///
/// ```
/// let digest = cockledrift::sha256(b"abc");
/// assert_eq!(digest[..4], [0xba, 0x78, 0x16, 0xbf]);
/// ```
pub fn sha256(bytes: &[u8]) -> [u8; 32] {
    let mut digest: Digest = [0; DIGEST];
    library::sha256(bytes, &mut digest);
    digest
}

/// The SHA-256 of bytes that come in parts, so that a file need not be in
/// memory. However they are cut, the digest is that of all of them.
///
/// ```
/// use cockledrift::Sha256;
///
/// let mut running = Sha256::start();
/// running.update(b"a");
/// running.update(b"bc");
/// assert_eq!(running.finish(), cockledrift::sha256(b"abc"));
/// ```
#[derive(Clone)]
pub struct Sha256 {
    running: Running,
    block: Block,
}

impl Sha256 {
    /// Before any bytes.
    pub fn start() -> Sha256 {
        let mut before = Sha256::with([0; RUNNING_NUMBERS], [0; BLOCK]);
        library::sha256_start(&mut before.running);
        before
    }

    /// After whatever these numbers say: the eight words of a hash value, the
    /// lowest 32 bits of each, and how many bytes came; of the block, as many
    /// bytes from the front as that number is over a multiple of 64. Any of them
    /// are safe.
    pub fn with(running: [u64; 9], block: [u8; 64]) -> Sha256 {
        Sha256 { running, block }
    }

    /// What was taken in, in numbers, and the block.
    pub fn held(&self) -> (&[u64; 9], &[u8; 64]) {
        (&self.running, &self.block)
    }

    /// Takes in bytes more.
    pub fn update(&mut self, bytes: &[u8]) {
        library::sha256_update(&mut self.running, &mut self.block, bytes);
    }

    /// The digest of the bytes so far; more may come after it.
    pub fn finish(&self) -> [u8; 32] {
        let mut digest: Digest = [0; DIGEST];
        library::sha256_finish(&self.running, &self.block, &mut digest);
        digest
    }
}
