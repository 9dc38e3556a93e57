//! Lent memory: filled with a pattern, watched all around, and compared.

use second::Answer;
use std::fmt;
use std::io::Write;

/// A function with two lent buffers; one that wants only one ignores the
/// second.
pub type Call<'c> = dyn Fn(&mut [u8], &mut [u8]) -> Answer + 'c;

/// Bytes before and after a lent buffer, which nobody may touch.
const AROUND: usize = 16;

/// What two calls did differently.
#[derive(Debug)]
pub struct Difference {
    pub lengths: (usize, usize),
    pub proved: Answer,
    pub second: Answer,
    /// The buffer (0 or 1) and place of a differing or wrongly touched byte.
    /// A place past the end, or before the start (negative), was not lent.
    pub byte: Option<(usize, isize)>,
}

impl fmt::Display for Difference {
    fn fmt(&self, to: &mut fmt::Formatter) -> fmt::Result {
        let Difference { lengths, proved, second, byte } = self;
        write!(to, "with buffers of {lengths:?} bytes\nproved: {proved:?}\nsecond: {second:?}")?;
        match byte {
            Some((buffer, place)) => write!(to, "\nbuffer {buffer} is wrong at {place}"),
            None => Ok(()),
        }
    }
}

/// A byte that depends on its place, so that moved bytes show too.
fn pattern(length: usize) -> Vec<u8> {
    (0..length + 2 * AROUND).map(|place| (place * 151 + place / 256 + 77) as u8).collect()
}

struct Lent {
    answer: Answer,
    memory: [Vec<u8>; 2],
}

fn lend(call: &Call, clean: &[Vec<u8>; 2]) -> Lent {
    let mut memory = clean.clone();
    let [one, other] = &mut memory;
    let (one_end, other_end) = (one.len() - AROUND, other.len() - AROUND);
    let answer = call(&mut one[AROUND..one_end], &mut other[AROUND..other_end]);
    Lent { answer, memory }
}

/// Which buffers a function fills.
#[derive(Clone, Copy, PartialEq, Eq)]
pub enum Fills {
    First,
    /// The first, and then the second: converting.
    Both,
    /// The first; the second may hold anything between, and is compared: reading
    /// strictly.
    Cleared,
}

/// Calls both with buffers of these lengths. Both must answer the same and
/// leave the same bytes, none of them wrongly touched.
pub fn same(
    fills: Fills,
    proved: &Call,
    second: &Call,
    lengths: (usize, usize),
) -> Result<Answer, Difference> {
    let clean = [pattern(lengths.0), pattern(lengths.1)];
    let one = lend(proved, &clean);
    let other = lend(second, &clean);
    let kept = filled(fills, one.answer, lengths);
    let byte = differing(&one.memory, &other.memory).or(touched(&one.memory, &clean, kept));
    if one.answer == other.answer && byte.is_none() {
        return Ok(other.answer);
    }
    Err(Difference { lengths, proved: one.answer, second: other.answer, byte })
}

fn differing(one: &[Vec<u8>; 2], other: &[Vec<u8>; 2]) -> Option<(usize, isize)> {
    (0..2).find_map(|buffer| {
        first_difference(&one[buffer], &other[buffer]).map(|place| (buffer, place))
    })
}

fn first_difference(one: &[u8], other: &[u8]) -> Option<isize> {
    if one == other {
        return None;
    }
    let place = one.iter().zip(other).position(|(a, b)| a != b)?;
    Some(place as isize - AROUND as isize)
}

/// How many bytes from the front the answer allows to be written, whatever
/// the second implementation does.
fn filled(fills: Fills, answer: Answer, lengths: (usize, usize)) -> [usize; 2] {
    match (fills, answer) {
        (Fills::First, Answer::Done { bytes, .. }) => [bytes.min(lengths.0), 0],
        (Fills::First, Answer::Refused { .. }) => [0, 0],
        (Fills::Both, Answer::Done { bytes, .. }) => [lengths.0, bytes.min(lengths.1)],
        // A reader's refusal, or one that may be a writer's.
        (Fills::Both, Answer::Refused { number: 0..=10, .. }) => [0, 0],
        (Fills::Both, Answer::Refused { .. }) => [lengths.0, 0],
        (Fills::Cleared, Answer::Done { bytes, .. }) => [bytes.min(lengths.0), lengths.1],
        (Fills::Cleared, Answer::Refused { .. }) => [0, lengths.1],
    }
}

/// A byte touched outside the `kept` ones.
fn touched(
    memory: &[Vec<u8>; 2],
    clean: &[Vec<u8>; 2],
    kept: [usize; 2],
) -> Option<(usize, isize)> {
    (0..2).find_map(|buffer| {
        let (memory, clean) = (&memory[buffer], &clean[buffer]);
        let from = AROUND + kept[buffer];
        let before = first_difference(&memory[..AROUND], &clean[..AROUND]);
        let after = first_difference(&memory[from..], &clean[from..]);
        let place = before.or(after.map(|place| place + from as isize))?;
        Some((buffer, place))
    })
}

pub fn hex(bytes: &[u8]) -> String {
    bytes.iter().map(|byte| format!("{byte:02x}")).collect()
}

/// Stops the test: what was tried, its bytes in hex, and both answers. They go
/// straight to standard error, so that they are seen even if the library's
/// own runtime ends the program on a panic.
pub fn disagree(what: &str, bytes: &[u8], difference: &dyn fmt::Display) -> ! {
    let text = format!("{what} of {} bytes\n{}\n{difference}", bytes.len(), hex(bytes));
    let _ = writeln!(std::io::stderr(), "\nthey disagree on {text}");
    panic!("they disagree on {what}");
}
