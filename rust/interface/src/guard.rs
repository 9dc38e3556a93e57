//! Memory between guard pages: a byte read or written outside ends the program.

use std::ffi::c_void;
use std::ptr::null_mut;
use std::slice;

// The C library's own, which every program in Rust is linked with here.
extern "C" {
    fn mmap(at: *mut c_void, n: usize, access: i32, kind: i32, file: i32, from: i64)
        -> *mut c_void;
    fn mprotect(at: *mut c_void, n: usize, access: i32) -> i32;
    fn munmap(at: *mut c_void, n: usize) -> i32;
}

const PAGE: usize = 4096;
const NO_ACCESS: i32 = 0;
const READ_AND_WRITE: i32 = 1 | 2;
const PRIVATE_AND_ANONYMOUS: i32 = 2 | 0x20;

/// Bytes that are watched on the side that has no guard page.
const AROUND: usize = 64;
const WATCHED: u8 = 0xa5;

/// A byte that depends on its place, so that moved bytes show too.
pub fn pattern(place: usize) -> u8 {
    (place * 151 + place / 256 + 77) as u8
}

/// The numbers of four bytes that are in a lent buffer: a buffer touches a page's start or end, so
/// all of its bytes are, where they are a multiple of four.
pub fn as_numbers(bytes: &mut [u8]) -> &mut [f32] {
    // SAFETY: any four bytes are a number.
    let (before, numbers, behind) = unsafe { bytes.align_to_mut::<f32>() };
    assert!(before.is_empty() && behind.is_empty(), "bytes of whole numbers");
    numbers
}

/// Lent bytes as words: whole ones, from an aligned place.
pub fn words(bytes: &[u8]) -> &[u64] {
    // SAFETY: any bytes are words.
    let (before, words, behind) = unsafe { bytes.align_to() };
    assert!(before.is_empty() && behind.is_empty(), "whole words are lent");
    words
}

/// The same, to be written.
pub fn words_mut(bytes: &mut [u8]) -> &mut [u64] {
    // SAFETY: any bytes are words, and any words are bytes.
    let (before, words, behind) = unsafe { bytes.align_to_mut() };
    assert!(before.is_empty() && behind.is_empty(), "whole words are lent");
    words
}

/// Which guard page a lent buffer touches.
#[derive(Clone, Copy, PartialEq, Eq, Debug)]
pub enum Side {
    Front,
    Behind,
}

/// Pages of memory with a guard page on each side.
pub struct Guarded {
    start: *mut u8,
    room: usize,
}

impl Guarded {
    /// Room for so many bytes, in whole pages.
    pub fn new(bytes: usize) -> Guarded {
        let room = (bytes + AROUND).next_multiple_of(PAGE);
        // SAFETY: memory that nobody has, which is made accessible but for its first and last page.
        unsafe {
            let all = mmap(null_mut(), room + 2 * PAGE, NO_ACCESS, PRIVATE_AND_ANONYMOUS, -1, 0);
            assert_ne!(all as isize, -1, "the system gives memory");
            let start = all.cast::<u8>().add(PAGE);
            assert_eq!(mprotect(start.cast(), room, READ_AND_WRITE), 0, "the system guards memory");
            Guarded { start, room }
        }
    }

    /// So many bytes that touch a guard page, each one depending on its place.
    pub fn lend(&mut self, bytes: usize, side: Side) -> &mut [u8] {
        let (from, beside) = self.places(bytes, side);
        let all = self.all();
        all[beside..beside + AROUND].fill(WATCHED);
        let lent = &mut all[from..from + bytes];
        for (place, byte) in lent.iter_mut().enumerate() {
            *byte = pattern(place);
        }
        lent
    }

    /// These bytes, where they touch a guard page.
    pub fn hold(&mut self, bytes: &[u8], side: Side) -> &[u8] {
        let lent = self.lend(bytes.len(), side);
        lent.copy_from_slice(bytes);
        lent
    }

    /// Whether the bytes on the other side of a lent buffer are as they were.
    pub fn untouched(&mut self, bytes: usize, side: Side) -> bool {
        let (_, beside) = self.places(bytes, side);
        self.all()[beside..beside + AROUND].iter().all(|&byte| byte == WATCHED)
    }

    /// Where a buffer starts, and the bytes beside it.
    fn places(&self, bytes: usize, side: Side) -> (usize, usize) {
        assert!(bytes + AROUND <= self.room, "no room for {bytes} bytes");
        match side {
            Side::Front => (0, bytes),
            Side::Behind => (self.room - bytes, self.room - bytes - AROUND),
        }
    }

    fn all(&mut self) -> &mut [u8] {
        // SAFETY: these bytes are accessible, this value's own, and zero at first.
        unsafe { slice::from_raw_parts_mut(self.start, self.room) }
    }
}

impl Drop for Guarded {
    fn drop(&mut self) {
        // SAFETY: the pages that `new` was given.
        unsafe { munmap(self.start.sub(PAGE).cast(), self.room + 2 * PAGE) };
    }
}
