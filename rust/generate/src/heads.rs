//! Headers right and wrong in each way, with items after them.

use crate::coder::{Head, FILE_ID};
use crate::damage::changed;

/// The least items after a header: good if the header is.
fn ended(head: Head) -> Vec<u8> {
    let mut bytes = head.bytes();
    bytes.extend_from_slice(if head.version == 8 { &[0, 0] } else { &[0] });
    bytes
}

pub fn all() -> impl Iterator<Item = Vec<u8>> {
    marks().chain(versions()).chain((3..=8).flat_map(lines)).chain(bytes_v8())
}

/// The first 21 bytes: each changed, and other first lines.
fn marks() -> impl Iterator<Item = Vec<u8>> {
    let good = ended(Head::short(8));
    let other = good.clone();
    let changes = (0..21).flat_map(move |place| {
        [0, b' ', good[place] ^ 0x20, good[place] ^ 1].map(|new| changed(&good, place, new))
    });
    let starts = [&b"Survex 3D Image File\r\n"[..], b"Survex 3D Image File\n\n", b"\n", b""];
    changes.chain(starts.map(|start| [start, &other[FILE_ID.len()..]].concat()))
}

/// The version: every value of each of its three bytes, and other lines.
fn versions() -> impl Iterator<Item = Vec<u8>> {
    let good = ended(Head::short(7));
    let rest = good[24..].to_vec();
    let values = (21..24).flat_map(move |place| {
        let good = good.clone();
        (0..=255).map(move |new| changed(&good, place, new))
    });
    let lines = [&b"v0.01\n"[..], b"Bv0.01\n", b"v10\n", b"v8\r\n", b"v 8\n", b"v\n", b"\n"];
    let others = lines.map(move |line| [&FILE_ID[..], line, &rest].concat());
    values.chain(others)
}

/// Texts around a length limit, and with carriage returns and zero bytes.
fn texts(longest: usize) -> Vec<Vec<u8>> {
    let mut texts = vec![vec![], b"x".to_vec(), b"\r".to_vec(), b"\rx".to_vec(), b"a\0b".to_vec()];
    texts.extend([b"\0".to_vec(), b"x\r\r".to_vec(), b"\xff\xfe".to_vec()]);
    for length in longest - 1..=longest + 2 {
        texts.push(vec![b't'; length]);
        texts.push([&vec![b't'; length - 1][..], b"\r"].concat());
        texts.push([&vec![b't'; length - 2][..], b"\rt"].concat());
    }
    texts
}

/// Titles and time lines, both at and past their limits, ended or not.
fn lines(version: u8) -> impl Iterator<Item = Vec<u8>> {
    texts(4096).into_iter().flat_map(move |title| {
        texts(64).into_iter().flat_map(move |time| {
            let head = Head { version, title: &title, time: &time, byte: 0 };
            let whole = ended(head);
            let title_end = 24 + title.len();
            let time_end = title_end + 1 + time.len();
            let cuts = [title_end, title_end + 1, time_end, time_end + 1, time_end + 2];
            let cut: Vec<_> =
                cuts.iter().map(|&end| whole[..end.min(whole.len())].to_vec()).collect();
            cut.into_iter().chain([whole])
        })
    })
}

/// Every value of the v8 byte.
fn bytes_v8() -> impl Iterator<Item = Vec<u8>> {
    (0..=255).map(|byte| ended(Head { byte, ..Head::short(8) }))
}
