//! SHA-256 against the digests that NIST publishes and against `sha256sum`, at
//! once and in parts.

use cockledrift::{sha256, Sha256};
use std::io::Write;
use std::process::{Command, Stdio};

/// A byte so many times, and its digest.
type Repeated = (u8, usize, &'static str);

/// The messages of text in FIPS 180-4's examples.
const TEXTS: [(&str, &str); 4] = [
    ("", "e3b0c44298fc1c149afbf4c8996fb92427ae41e4649b934ca495991b7852b855"),
    ("abc", "ba7816bf8f01cfea414140de5dae2223b00361a396177a9cb410ff61f20015ad"),
    (
        "abcdbcdecdefdefgefghfghighijhijkijkljklmklmnlmnomnopnopq",
        "248d6a61d20638b8e5c026930c3e6039a33ce45964ff2167f6ecedd419db06c1",
    ),
    (
        "abcdefghbcdefghicdefghijdefghijkefghijklfghijklmghijklmnhijklmno\
         ijklmnopjklmnopqklmnopqrlmnopqrsmnopqrstnopqrstu",
        "cf5b16a778af8380036ce59e7b0492370b249b11e8f07a51afac45037afee9d1",
    ),
];

/// The million `a` of the same, and NIST's further messages of one byte repeated.
const REPEATED: [Repeated; 10] = [
    (b'a', 1_000_000, "cdc76e5c9914fb9281a1c7e284d73e67f1809a48a497200e046d39ccc7112cd0"),
    (0xbd, 1, "68325720aabd7c82f30f554b313d0570c95accbb7dc4b5aae11204c08ffe732b"),
    (0, 55, "02779466cdec163811d078815c633f21901413081449002f24aa3e80f0b88ef7"),
    (0, 56, "d4817aa5497628e7c77e6b606107042bbba3130888c5f47a375e6179be789fbb"),
    (0, 57, "65a16cb7861335d5ace3c60718b5052e44660726da4cd13bb745381b235a1785"),
    (0, 64, "f5a5fd42d16a20302798ef6ed309979b43003d2320d9f0e8ea9831a92759fb4b"),
    (0, 1000, "541b3e9daa09b20bf85fa273e5cbd3e80185aa4ec298e765db87742b70138a53"),
    (0x41, 1000, "c2e686823489ced2017f6059b8b239318b6364f6dcd835d0a519105a1eadd6e4"),
    (0x55, 1005, "f4d62ddec0f3dd90ea1380fa16a5ff8dc4c54b21740650f24afc4120903552b0"),
    (0, 1_000_000, "d29751f2649b32ff572b5e0a9f541ea660a50f94ff0beedfb0b692b924cc8025"),
];

fn hex(digest: [u8; 32]) -> String {
    digest.iter().map(|byte| format!("{byte:02x}")).collect()
}

/// What `sha256sum` says of bytes.
fn told(bytes: &[u8]) -> String {
    let mut sum = Command::new("sha256sum")
        .stdin(Stdio::piped())
        .stdout(Stdio::piped())
        .spawn()
        .expect("sha256sum runs");
    sum.stdin.take().expect("its input").write_all(bytes).expect("it reads");
    let output = sum.wait_with_output().expect("it ends");
    String::from_utf8(output.stdout).expect("text")[..64].to_string()
}

/// Bytes that differ from place to place, and a number for the next choice.
struct Choices(u64);

impl Choices {
    fn next(&mut self) -> u64 {
        self.0 = self.0.wrapping_mul(6364136223846793005).wrapping_add(1442695040888963407);
        self.0 >> 33
    }

    fn bytes(&mut self, count: usize) -> Vec<u8> {
        (0..count).map(|_| self.next() as u8).collect()
    }
}

/// The digest of bytes in parts that end at these places.
fn in_parts(bytes: &[u8], ends: &[usize]) -> [u8; 32] {
    let mut running = Sha256::start();
    let mut at = 0;
    for end in ends {
        running.update(&bytes[at..*end]);
        at = *end;
    }
    running.update(&bytes[at..]);
    running.finish()
}

#[test]
fn the_published_digests() {
    for (text, digest) in TEXTS {
        assert_eq!(hex(sha256(text.as_bytes())), digest, "{text}");
    }
    for (byte, count, digest) in REPEATED {
        assert_eq!(hex(sha256(&vec![byte; count])), digest, "{count} of {byte:#x}");
    }
    let four = [0xc9, 0x8c, 0x8e, 0x55];
    let digest = "7abc22c0ae5af26ce93dbb94433a0e0b2e119d014f8e7f65bd56c61ccccd9504";
    assert_eq!(hex(sha256(&four)), digest);
}

#[test]
fn every_length_to_300_as_sha256sum() {
    let bytes = Choices(1).bytes(300);
    for length in 0..=300 {
        assert_eq!(hex(sha256(&bytes[..length])), told(&bytes[..length]), "{length} bytes");
    }
}

#[test]
fn lengths_about_whole_blocks_as_sha256sum() {
    let bytes = Choices(2).bytes(3 << 20);
    for middle in [1024, 4096, 65536, 1 << 20, 3 << 20] {
        for length in (middle - 10..=middle + 2).filter(|length| *length <= bytes.len()) {
            assert_eq!(hex(sha256(&bytes[..length])), told(&bytes[..length]), "{length} bytes");
        }
    }
}

#[test]
fn every_cut_in_two_is_the_whole() {
    let bytes = Choices(3).bytes(200);
    for length in 0..=200 {
        let whole = sha256(&bytes[..length]);
        for cut in 0..=length {
            assert_eq!(in_parts(&bytes[..length], &[cut]), whole, "{cut} of {length}");
        }
    }
}

#[test]
fn cuts_anywhere_are_the_whole() {
    let mut choices = Choices(4);
    let bytes = choices.bytes(100_000);
    let whole = told(&bytes);
    for longest in [1, 2, 63, 64, 65, 127, 128, 1000, 70_000] {
        let mut ends = Vec::new();
        let mut at = 0;
        loop {
            at += choices.next() as usize % (longest + 1);
            if bytes.len() < at {
                break;
            }
            ends.push(at);
        }
        assert_eq!(hex(in_parts(&bytes, &ends)), whole, "parts to {longest} bytes");
    }
}

#[test]
fn the_digest_so_far_leaves_the_rest_to_come() {
    let mut running = Sha256::start();
    for part in [&b"a"[..], b"", b"bc"] {
        running.finish();
        running.update(part);
    }
    assert_eq!(running.finish(), sha256(b"abc"));
}

/// A hash value, a count and a block that no message has: of each word the lowest
/// 32 bits count, of the block what the count leaves over, and the count wraps.
#[test]
fn any_numbers_are_taken_for_what_they_say() {
    let mut choices = Choices(5);
    for _ in 0..1000 {
        let mut numbers: [u64; 9] = std::array::from_fn(|_| choices.next() << 33 | choices.next());
        numbers[8] = u64::MAX - choices.next() % 200;
        let mut block = [0; 64];
        block.copy_from_slice(&choices.bytes(64));
        let count = choices.next() as usize % 300;
        let part = choices.bytes(count);
        let mut one = Sha256::with(numbers, block);
        let waiting = (numbers[8] % 64) as usize;
        let low = std::array::from_fn(|i| if i < 8 { numbers[i] % (1 << 32) } else { numbers[i] });
        block[waiting..].fill(0);
        let mut other = Sha256::with(low, block);
        assert_eq!(one.finish(), other.finish());
        one.update(&part);
        other.update(&part[..count / 2]);
        other.update(&part[count / 2..]);
        assert_eq!(one.held().0, other.held().0);
        assert_eq!(one.held().0[8], numbers[8].wrapping_add(count as u64));
        assert_eq!(one.finish(), other.finish());
    }
}
