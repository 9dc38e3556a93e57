//! SHA-256 (FIPS 180-4) in ordinary Rust.

/// The first 32 bits of the fractional parts of the cube roots of the first 64 primes.
const ROUNDS: [u32; 64] = [
    0x428a2f98, 0x71374491, 0xb5c0fbcf, 0xe9b5dba5, 0x3956c25b, 0x59f111f1, 0x923f82a4, 0xab1c5ed5,
    0xd807aa98, 0x12835b01, 0x243185be, 0x550c7dc3, 0x72be5d74, 0x80deb1fe, 0x9bdc06a7, 0xc19bf174,
    0xe49b69c1, 0xefbe4786, 0x0fc19dc6, 0x240ca1cc, 0x2de92c6f, 0x4a7484aa, 0x5cb0a9dc, 0x76f988da,
    0x983e5152, 0xa831c66d, 0xb00327c8, 0xbf597fc7, 0xc6e00bf3, 0xd5a79147, 0x06ca6351, 0x14292967,
    0x27b70a85, 0x2e1b2138, 0x4d2c6dfc, 0x53380d13, 0x650a7354, 0x766a0abb, 0x81c2c92e, 0x92722c85,
    0xa2bfe8a1, 0xa81a664b, 0xc24b8b70, 0xc76c51a3, 0xd192e819, 0xd6990624, 0xf40e3585, 0x106aa070,
    0x19a4c116, 0x1e376c08, 0x2748774c, 0x34b0bcb5, 0x391c0cb3, 0x4ed8aa4a, 0x5b9cca4f, 0x682e6ff3,
    0x748f82ee, 0x78a5636f, 0x84c87814, 0x8cc70208, 0x90befffa, 0xa4506ceb, 0xbef9a3f7, 0xc67178f2,
];

const START: [u32; 8] = [
    0x6a09e667, 0xbb67ae85, 0x3c6ef372, 0xa54ff53a, 0x510e527f, 0x9b05688c, 0x1f83d9ab, 0x5be0cd19,
];

/// The SHA-256 of bytes.
pub fn sha256(bytes: &[u8]) -> [u8; 32] {
    let mut hash = START;
    let (blocks, rest) = bytes.as_chunks();
    for block in blocks {
        add_block(&mut hash, block);
    }
    // The rest, a one bit, zeros and the length in bits: one block or two.
    let mut last = [0; 128];
    last[..rest.len()].copy_from_slice(rest);
    last[rest.len()] = 0x80;
    let end = if rest.len() < 56 { 64 } else { 128 };
    last[end - 8..end].copy_from_slice(&(8 * bytes.len() as u64).to_be_bytes());
    for block in last[..end].as_chunks().0 {
        add_block(&mut hash, block);
    }
    let mut digest = [0; 32];
    for (to, word) in digest.as_chunks_mut().0.iter_mut().zip(hash) {
        *to = word.to_be_bytes();
    }
    digest
}

fn add_block(hash: &mut [u32; 8], block: &[u8; 64]) {
    let mut words = [0; 16];
    for (word, four) in words.iter_mut().zip(block.as_chunks().0) {
        *word = u32::from_be_bytes(*four);
    }
    let mut state = *hash;
    for (number, rounds) in ROUNDS.as_chunks::<16>().0.iter().enumerate() {
        if number > 0 {
            next_words(&mut words);
        }
        for (word, round) in words.iter().zip(rounds) {
            turn(&mut state, word.wrapping_add(*round));
        }
    }
    for (word, more) in hash.iter_mut().zip(state) {
        *word = word.wrapping_add(more);
    }
}

/// The next sixteen words of the schedule, in the place of the last.
#[inline(always)]
fn next_words(words: &mut [u32; 16]) {
    for place in 0..16 {
        let early = words[(place + 1) % 16];
        let late = words[(place + 14) % 16];
        let small_0 = early.rotate_right(7) ^ early.rotate_right(18) ^ early >> 3;
        let small_1 = late.rotate_right(17) ^ late.rotate_right(19) ^ late >> 10;
        words[place] = words[place]
            .wrapping_add(small_0)
            .wrapping_add(words[(place + 9) % 16])
            .wrapping_add(small_1);
    }
}

#[inline(always)]
fn turn([a, b, c, d, e, f, g, h]: &mut [u32; 8], word: u32) {
    let large_1 = e.rotate_right(6) ^ e.rotate_right(11) ^ e.rotate_right(25);
    let choice = *g ^ (*e & (*f ^ *g));
    let first = h.wrapping_add(large_1).wrapping_add(choice).wrapping_add(word);
    let large_0 = a.rotate_right(2) ^ a.rotate_right(13) ^ a.rotate_right(22);
    let majority = (*a & *b) | (*c & (*a | *b));
    let second = large_0.wrapping_add(majority);
    (*h, *g, *f, *e) = (*g, *f, *e, d.wrapping_add(first));
    (*d, *c, *b, *a) = (*c, *b, *a, first.wrapping_add(second));
}
