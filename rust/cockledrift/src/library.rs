//! The proved library's C interface, and the only unsafe code here: each
//! function lends its slices for the time of a call and hands back the numbers
//! that the library tells. What they mean is left to the module of each subject.
//!
//! No pointer comes back from the library: a number that it tells serves only to
//! index what was lent, which Rust checks.

#![allow(unsafe_code)]

/// An answer: number 0 is success; any other is a refusal's, with its place in
/// `bytes`.
#[repr(C)]
pub struct AnswerNumbers {
    pub number: u64,
    pub bytes: usize,
    pub records: usize,
    pub version: u64,
}

/// What was saved: refused 0, the sheet's bytes and records, the version, and the
/// report's number, place and bytes left; or the number of a refusal and its place.
#[repr(C)]
pub struct SalvageNumbers {
    pub refused: u64,
    pub bytes: usize,
    pub records: usize,
    pub version: u64,
    pub number: u64,
    pub place: usize,
    pub left: usize,
}

/// Which file is later: 1, 2 or 0 for neither, with the place and the length of
/// the later time line; or 3 for a refusal of `file`, with its number and place.
#[repr(C)]
#[derive(Debug)]
pub struct ComparedNumbers {
    pub which: u64,
    pub file: u64,
    pub number: u64,
    pub place: usize,
    pub length: usize,
}

/// How far a survey reaches: number 0, how many legs took part and the two corners;
/// or the refusal's number and place.
#[repr(C)]
pub struct ReachNumbers {
    pub number: u64,
    pub place: usize,
    pub legs: usize,
    pub least: [i32; 3],
    pub greatest: [i32; 3],
}

/// Legs for the viewer: number 0 and how many came; or the refusal's number and place.
#[repr(C)]
pub struct ViewNumbers {
    pub number: u64,
    pub place: usize,
    pub legs: usize,
}

/// A summary: number 0 and the words that it takes; or the refusal's number and place.
#[repr(C)]
pub struct SummaryNumbers {
    pub number: u64,
    pub place: usize,
    pub words: usize,
}

/// The entrances of a stretch: number 0, how many they are, and 1 with the next one or 0
/// where there is none; or the refusal's number and place.
#[repr(C)]
pub struct EntranceNumbers {
    pub number: u64,
    pub place: usize,
    pub count: u64,
    pub found: u64,
    pub next: usize,
}

/// How many numbers say where a step reader stands.
pub const STAND_NUMBERS: usize = 14;

/// The bytes of a label's buffer.
pub const LABEL_LIMIT: usize = 4096;

/// An opening: number 0, with the version and the first item's place; or the
/// refusal's number and place.
#[repr(C)]
pub struct OpenNumbers {
    pub number: u64,
    pub place: usize,
    pub version: u64,
}

/// A step: 1 a record with its bytes and the label's bytes that were kept, 2
/// nothing, 3 the end, 4 a refusal with its number, and its place in `bytes`.
#[repr(C)]
#[derive(Debug)]
pub struct StepNumbers {
    pub what: u64,
    pub bytes: usize,
    pub kept: usize,
    pub number: u64,
}

/// How many numbers say what was taken in of a message: eight words and a count.
pub const RUNNING_NUMBERS: usize = 9;

/// The bytes of a block and of a digest of SHA-256.
pub const BLOCK: usize = 64;
pub const DIGEST: usize = 32;

// A slice takes two arguments, its first byte and its length; an array one.
extern "C" {
    fn cockledrift_read(file: *const u8, n: usize, sheet: *mut u8, m: usize) -> AnswerNumbers;
    fn cockledrift_salvage(file: *const u8, n: usize, sheet: *mut u8, m: usize) -> SalvageNumbers;
    fn cockledrift_read_strict(
        file: *const u8,
        n: usize,
        sheet: *mut u8,
        m: usize,
        room: *mut u8,
        k: usize,
        seed: u64,
    ) -> AnswerNumbers;
    fn cockledrift_write(sheet: *const u8, n: usize, out: *mut u8, m: usize) -> AnswerNumbers;
    fn cockledrift_write_v7(sheet: *const u8, n: usize, out: *mut u8, m: usize) -> AnswerNumbers;
    fn cockledrift_convert(
        file: *const u8,
        n: usize,
        sheet: *mut u8,
        m: usize,
        out: *mut u8,
        k: usize,
    ) -> AnswerNumbers;
    fn cockledrift_edit(
        file: *const u8,
        n: usize,
        first: usize,
        count: usize,
        new: *const u8,
        m: usize,
        out: *mut u8,
        k: usize,
    ) -> AnswerNumbers;
    fn cockledrift_compare(a: *const u8, n: usize, b: *const u8, m: usize) -> ComparedNumbers;
    fn cockledrift_reach(sheet: *const u8, n: usize, name: *const u8, m: usize) -> ReachNumbers;
    fn cockledrift_viewer_legs(
        sheet: *const u8,
        n: usize,
        x: i32,
        y: i32,
        z: i32,
        out: *mut f32,
        m: usize,
    ) -> ViewNumbers;
    fn cockledrift_summary(sheet: *const u8, n: usize, words: *mut u64, m: usize)
        -> SummaryNumbers;
    fn cockledrift_entrances(
        words: *const u64,
        n: usize,
        records: u32,
        from: usize,
        to: usize,
    ) -> EntranceNumbers;
    fn cockledrift_summary_update(
        words: *mut u64,
        n: usize,
        records: u32,
        first: usize,
        count: usize,
        new: *const u8,
        m: usize,
    ) -> SummaryNumbers;
    fn cockledrift_open(file: *const u8, n: usize, stand: *mut Stand) -> OpenNumbers;
    fn cockledrift_step(
        file: *const u8,
        n: usize,
        stand: *mut Stand,
        label: *mut Label,
        out: *mut u8,
        m: usize,
    ) -> StepNumbers;
    fn cockledrift_next(
        file: *const u8,
        n: usize,
        stand: *mut Stand,
        label: *mut Label,
        out: *mut u8,
        m: usize,
    ) -> StepNumbers;
    fn cockledrift_sha256(bytes: *const u8, n: usize, out: *mut Digest);
    fn cockledrift_sha256_start(running: *mut Running);
    fn cockledrift_sha256_update(
        running: *mut Running,
        block: *mut Block,
        bytes: *const u8,
        n: usize,
    );
    fn cockledrift_sha256_finish(running: *const Running, block: *const Block, out: *mut Digest);
}

/// Where a step reader stands, and the buffer of its label.
pub type Stand = [u64; STAND_NUMBERS];
pub type Label = [u8; LABEL_LIMIT];

/// What was taken in of a message, the block that waits, and a digest.
pub type Running = [u64; RUNNING_NUMBERS];
pub type Block = [u8; BLOCK];
pub type Digest = [u8; DIGEST];

/// A lent buffer's two arguments.
#[inline]
fn lend(buffer: &mut [u8]) -> (*mut u8, usize) {
    (buffer.as_mut_ptr(), buffer.len())
}

pub fn read(file: &[u8], sheet: &mut [u8]) -> AnswerNumbers {
    let (sheet, room) = lend(sheet);
    // SAFETY: each pointer goes with the length of its own slice, which outlives the call.
    unsafe { cockledrift_read(file.as_ptr(), file.len(), sheet, room) }
}

pub fn salvage(file: &[u8], sheet: &mut [u8]) -> SalvageNumbers {
    let (sheet, room) = lend(sheet);
    // SAFETY: each pointer goes with the length of its own slice, which outlives the call.
    unsafe { cockledrift_salvage(file.as_ptr(), file.len(), sheet, room) }
}

pub fn read_strict(file: &[u8], sheet: &mut [u8], names: &mut [u8], seed: u64) -> AnswerNumbers {
    let ((sheet, m), (names, k)) = (lend(sheet), lend(names));
    // SAFETY: each pointer goes with the length of its own slice, which outlives the call.
    unsafe { cockledrift_read_strict(file.as_ptr(), file.len(), sheet, m, names, k, seed) }
}

pub fn write(sheet: &[u8], out: &mut [u8]) -> AnswerNumbers {
    let (out, room) = lend(out);
    // SAFETY: each pointer goes with the length of its own slice, which outlives the call.
    unsafe { cockledrift_write(sheet.as_ptr(), sheet.len(), out, room) }
}

pub fn write_v7(sheet: &[u8], out: &mut [u8]) -> AnswerNumbers {
    let (out, room) = lend(out);
    // SAFETY: each pointer goes with the length of its own slice, which outlives the call.
    unsafe { cockledrift_write_v7(sheet.as_ptr(), sheet.len(), out, room) }
}

pub fn convert(file: &[u8], sheet: &mut [u8], out: &mut [u8]) -> AnswerNumbers {
    let (sheet, sheet_room) = lend(sheet);
    let (out, room) = lend(out);
    // SAFETY: each pointer goes with the length of its own slice, which outlives the call.
    unsafe { cockledrift_convert(file.as_ptr(), file.len(), sheet, sheet_room, out, room) }
}

pub fn edit(file: &[u8], first: usize, count: usize, new: &[u8], out: &mut [u8]) -> AnswerNumbers {
    let (from, size) = (file.as_ptr(), file.len());
    let (out, room) = lend(out);
    // SAFETY: each pointer goes with the length of its own slice, which outlives the call.
    unsafe { cockledrift_edit(from, size, first, count, new.as_ptr(), new.len(), out, room) }
}

pub fn compare(first: &[u8], second: &[u8]) -> ComparedNumbers {
    // SAFETY: each pointer goes with the length of its own slice, which outlives the call.
    unsafe { cockledrift_compare(first.as_ptr(), first.len(), second.as_ptr(), second.len()) }
}

pub fn reach(sheet: &[u8], name: &[u8]) -> ReachNumbers {
    // SAFETY: each pointer goes with the length of its own slice, which outlives the call.
    unsafe { cockledrift_reach(sheet.as_ptr(), sheet.len(), name.as_ptr(), name.len()) }
}

pub fn viewer_legs(sheet: &[u8], [x, y, z]: [i32; 3], out: &mut [f32]) -> ViewNumbers {
    let (s, n) = (sheet.as_ptr(), sheet.len());
    // SAFETY: each pointer goes with the length of its own slice, which outlives the call.
    unsafe { cockledrift_viewer_legs(s, n, x, y, z, out.as_mut_ptr(), out.len()) }
}

pub fn summary(sheet: &[u8], words: &mut [u64]) -> SummaryNumbers {
    // SAFETY: each pointer goes with the length of its own slice, which outlives the call.
    unsafe { cockledrift_summary(sheet.as_ptr(), sheet.len(), words.as_mut_ptr(), words.len()) }
}

pub fn entrances(words: &[u64], records: u32, from: usize, to: usize) -> EntranceNumbers {
    // SAFETY: the pointer goes with the length of its slice, which outlives the call.
    unsafe { cockledrift_entrances(words.as_ptr(), words.len(), records, from, to) }
}

pub fn summary_update(
    words: &mut [u64],
    records: u32,
    first: usize,
    count: usize,
    new: &[u8],
) -> SummaryNumbers {
    let (to, lent) = (words.as_mut_ptr(), words.len());
    // SAFETY: each pointer goes with the length of its own slice, which outlives the call.
    unsafe { cockledrift_summary_update(to, lent, records, first, count, new.as_ptr(), new.len()) }
}

pub fn open(file: &[u8], stand: &mut Stand) -> OpenNumbers {
    // SAFETY: the file's pointer goes with its length; both outlive the call.
    unsafe { cockledrift_open(file.as_ptr(), file.len(), stand) }
}

#[inline]
pub fn step(file: &[u8], stand: &mut Stand, label: &mut Label, out: &mut [u8]) -> StepNumbers {
    let (out, room) = lend(out);
    // SAFETY: each slice's pointer goes with its length; all that is lent outlives the call.
    unsafe { cockledrift_step(file.as_ptr(), file.len(), stand, label, out, room) }
}

#[inline]
pub fn next(file: &[u8], stand: &mut Stand, label: &mut Label, out: &mut [u8]) -> StepNumbers {
    let (out, room) = lend(out);
    // SAFETY: each slice's pointer goes with its length; all that is lent outlives the call.
    unsafe { cockledrift_next(file.as_ptr(), file.len(), stand, label, out, room) }
}

pub fn sha256(bytes: &[u8], out: &mut Digest) {
    // SAFETY: the slice's pointer goes with its length; all that is lent outlives the call.
    unsafe { cockledrift_sha256(bytes.as_ptr(), bytes.len(), out) }
}

pub fn sha256_start(running: &mut Running) {
    // SAFETY: what is lent outlives the call.
    unsafe { cockledrift_sha256_start(running) }
}

pub fn sha256_update(running: &mut Running, block: &mut Block, bytes: &[u8]) {
    // SAFETY: the slice's pointer goes with its length; all that is lent outlives the call.
    unsafe { cockledrift_sha256_update(running, block, bytes.as_ptr(), bytes.len()) }
}

pub fn sha256_finish(running: &Running, block: &Block, out: &mut Digest) {
    // SAFETY: what is lent outlives the call.
    unsafe { cockledrift_sha256_finish(running, block, out) }
}
