//! Calls as `c/calls.c` takes them, and what the crate for Rust answers them.

use crate::guard::{as_numbers, pattern, words, words_mut, Guarded, Side};
use crate::list::list;
use cockledrift::{Answer, Done, Later, Reader, Refusal, RefusedFile, Step, Which};

/// One call: its letter, two inputs, the room of two buffers, the numbers of an
/// edit, and the records of a summary.
#[derive(Clone, Default)]
pub struct Request {
    pub letter: u8,
    pub a: Vec<u8>,
    pub b: Vec<u8>,
    pub room: usize,
    pub second_room: usize,
    pub first: usize,
    pub count: usize,
    pub records: u32,
}

impl Request {
    /// A call with one input and one buffer.
    pub fn new(letter: u8, a: &[u8], room: usize) -> Request {
        Request { letter, a: a.to_vec(), room, ..Request::default() }
    }

    /// The bytes for the program in C.
    pub fn bytes(&self) -> Vec<u8> {
        let Request { letter, a, b, room, second_room, first, count, records } = self;
        let lent = [*letter as usize, a.len(), b.len(), *room, *second_room];
        let numbers = [&lent[..], &[*first, *count, *records as usize]].concat();
        let numbers = numbers.iter().flat_map(|number| number.to_le_bytes());
        numbers.chain(a.iter().copied()).chain(b.iter().copied()).collect()
    }
}

/// What is lent: each in pages of its own, between guard pages.
pub struct Memory {
    a: Guarded,
    b: Guarded,
    out: Guarded,
    second: Guarded,
}

impl Memory {
    pub fn new(bytes: usize) -> Memory {
        let [a, b, out, second] = [(); 4].map(|()| Guarded::new(bytes));
        Memory { a, b, out, second }
    }

    /// The line that the crate's answer makes, the same on both sides.
    pub fn answer(&mut self, request: &Request) -> String {
        let line = self.on(request, Side::Front);
        assert_eq!(line, self.on(request, Side::Behind), "on both sides");
        format!("{} {line}", request.letter as char)
    }

    fn on(&mut self, request: &Request, side: Side) -> String {
        let Request { letter, a: file, b: other, room, second_room, first, count, records } =
            request;
        let (a, b) = (self.a.hold(file, side), self.b.hold(other, side));
        let (out, second) = (self.out.lend(*room, side), self.second.lend(*second_room, side));
        let line = match letter {
            b'r' => answered(cockledrift::read(a, out), out, second),
            b'v' => salvaged(cockledrift::salvage(a, out), out),
            b'i' => {
                let answer = cockledrift::read_strict(a, out, second, *first as u64);
                assert!(second.iter().all(|byte| *byte == 0), "the room for names ends as zeros");
                answered(answer, out, second)
            }
            b'w' => answered(cockledrift::write(a, out), out, second),
            b'7' => answered(cockledrift::write_v7(a, out), out, second),
            b'c' => answered(cockledrift::convert(a, out, second), out, second),
            b'e' => answered(cockledrift::edit(a, *first, *count, b, out), out, second),
            b'l' => compared(a, b),
            b'x' => reached(a, b),
            b'g' => viewed(a, b, out),
            b'y' => summed(cockledrift::summarize(a, words_mut(out)), out),
            b'q' => stretch(cockledrift::entrances(words(a), *records, *first..*count)),
            b'u' => {
                let most = a.len().min(out.len());
                out[..most].copy_from_slice(&a[..most]);
                let words = words_mut(out);
                summed(cockledrift::update_summary(words, *records, *first, *count, b), out)
            }
            b's' => stepped(a, out, |reader, out| reader.step(out)),
            b'n' => {
                stepped(a, out, |reader, out| Ok(reader.next(out)?.map_or(Step::End, Step::Record)))
            }
            b'a' => anywhere(a, b, out),
            b'p' => listed(a, out),
            b'd' => digested(a, *first),
            b'm' => Refusal { number: *first as u8, place: 0 }.reason().to_string(),
            _ => panic!("no such call"),
        };
        assert!(a == file && b == other, "what is lent to be read stays");
        for (lent, bytes) in [
            (&mut self.a, file.len()),
            (&mut self.b, other.len()),
            (&mut self.out, *room),
            (&mut self.second, *second_room),
        ] {
            assert!(lent.untouched(bytes, side), "bytes beside a lent buffer stay");
        }
        line
    }
}

const START: u64 = 0xcbf2_9ce4_8422_2325;

/// FNV-1a, as the program in C has it.
fn hash(start: u64, bytes: &[u8]) -> u64 {
    bytes.iter().fold(start, |hash, &byte| (hash ^ u64::from(byte)).wrapping_mul(0x100_0000_01b3))
}

fn hash_numbers(start: u64, numbers: &[u64]) -> u64 {
    numbers.iter().fold(start, |start, number| hash(start, &number.to_le_bytes()))
}

fn answered(answer: Answer, out: &[u8], second: &[u8]) -> String {
    let (number, bytes, records, version) = match answer {
        Ok(Done { bytes, records, version }) => (0, bytes, records, version),
        Err(Refusal { number, place }) => (number, place, 0, 0),
    };
    let (out, second) = (hash(START, out), hash(START, second));
    format!("{number} {bytes} {records} {version} {out:016x} {second:016x}")
}

fn salvaged(answer: Result<cockledrift::Saved, Refusal>, out: &[u8]) -> String {
    let (refused, done, number, place, left) = match answer {
        Ok(cockledrift::Saved { done, refusal, place, left }) => {
            (0, done, refusal.map_or(0, |refusal| refusal.number), place, left)
        }
        Err(Refusal { number, place }) => {
            (number, Done { bytes: 0, records: 0, version: 0 }, 0, place, 0)
        }
    };
    let Done { bytes, records, version } = done;
    let out = hash(START, out);
    format!("{refused} {bytes} {records} {version} {number} {place} {left} {out:016x}")
}

fn compared(first: &[u8], second: &[u8]) -> String {
    let later = |which: u8, file: &[u8], line: &[u8]| {
        format!("{which} 0 0 {} {}", line.as_ptr() as usize - file.as_ptr() as usize, line.len())
    };
    match cockledrift::compare(first, second) {
        Ok(Later::Same) => "0 0 0 0 0".to_string(),
        Ok(Later::First(line)) => later(1, first, line),
        Ok(Later::Second(line)) => later(2, second, line),
        Err(RefusedFile { file, refusal: Refusal { number, place } }) => {
            let file = if file == Which::First { 1 } else { 2 };
            format!("3 {file} {number} {place} 0")
        }
    }
}

fn reached(sheet: &[u8], name: &[u8]) -> String {
    let (number, place, legs, bounds) = match cockledrift::reach(sheet, name) {
        Ok(reach) => (0, 0, reach.legs, [reach.least, reach.greatest].concat()),
        Err(Refusal { number, place }) => (number, place, 0, vec![0; 6]),
    };
    let told = format!("{number} {place} {legs}");
    bounds.iter().fold(told, |told, bound| format!("{told} {bound}"))
}

/// The legs of a sheet, less the origin that three numbers of four bytes say.
fn viewed(sheet: &[u8], at: &[u8], out: &mut [u8]) -> String {
    let (number, place, legs) = match cockledrift::viewer_legs(sheet, origin(at), as_numbers(out)) {
        Ok(legs) => (0, 0, legs),
        Err(Refusal { number, place }) => (number, place, 0),
    };
    format!("{number} {place} {legs} {:016x}", hash(START, out))
}

/// Three numbers of four bytes each.
pub fn origin(bytes: &[u8]) -> [i32; 3] {
    let number = |at: usize| i32::from_le_bytes([0, 1, 2, 3].map(|byte| bytes[4 * at + byte]));
    [0, 1, 2].map(number)
}

fn summed(answer: Result<usize, Refusal>, out: &[u8]) -> String {
    let (number, place, words) = match answer {
        Ok(words) => (0, 0, words),
        Err(Refusal { number, place }) => (number, place, 0),
    };
    format!("{number} {place} {words} {:016x}", hash(START, out))
}

fn stretch(answer: Result<cockledrift::Entrances, Refusal>) -> String {
    let (number, place, count, next) = match answer {
        Ok(cockledrift::Entrances { count, next }) => (0, 0, count, next),
        Err(Refusal { number, place }) => (number, place, 0, None),
    };
    format!("{number} {place} {count} {} {}", u8::from(next.is_some()), next.unwrap_or(0))
}

type Stepper = fn(&mut Reader, &mut [u8]) -> Result<Step, Refusal>;

/// Steps to the end or a refusal, and once more.
fn stepped(file: &[u8], out: &mut [u8], step: Stepper) -> String {
    let (mut reader, opened) = Reader::open(file);
    let (number, place, version) = match opened {
        Ok(opened) => (0, opened.place, opened.version),
        Err(Refusal { number, place }) => (number, place, 0),
    };
    let mut so_far = hash_numbers(START, reader.stand().0);
    let (mut steps, mut ends, mut told) = (0, 0, [0; 4]);
    while ends < 2 {
        told = numbers(step(&mut reader, out));
        so_far = hash(hash_numbers(so_far, &told), &out[..out.len().min(64)]);
        steps += 1;
        ends += (told[0] > 2) as u8;
    }
    so_far = hash_numbers(so_far, reader.stand().0);
    let [what, bytes, _, refused] = told;
    let out = hash(START, out);
    format!("{number} {place} {version} {steps} {what} {bytes} {refused} {so_far:016x} {out:016x}")
}

/// What a step answers, in the header's numbers.
fn numbers(step: Result<Step, Refusal>) -> [u64; 4] {
    match step {
        Ok(Step::Record(found)) => [1, found.bytes as u64, found.kept as u64, 0],
        Ok(Step::Nothing) => [2, 0, 0, 0],
        Ok(Step::End) => [3, 0, 0, 0],
        Err(Refusal { number, place }) => [4, place as u64, 0, number.into()],
    }
}

/// Two steps of a reader that stands wherever these numbers and a label of any
/// bytes say.
fn anywhere(file: &[u8], at: &[u8], out: &mut [u8]) -> String {
    let mut stand = [0; 14];
    for (number, bytes) in stand.iter_mut().zip(at.chunks(8)) {
        *number = u64::from_le_bytes(bytes.try_into().expect("eight bytes"));
    }
    let mut reader = Reader::with(file, stand, std::array::from_fn(pattern));
    let mut so_far = START;
    let mut look = |reader: &Reader, out: &[u8]| {
        so_far = hash(hash_numbers(so_far, reader.stand().0), reader.stand().1);
        so_far = hash(so_far, out);
        so_far
    };
    let one = numbers(reader.step(out));
    look(&reader, out);
    let other = numbers(reader.next(out).map(|found| found.map_or(Step::End, Step::Record)));
    let told = [one, other].concat().iter().map(u64::to_string).collect::<Vec<_>>().join(" ");
    format!("{told} {:016x}", look(&reader, out))
}

/// The digest of bytes, whole and cut after the first of them.
fn digested(bytes: &[u8], first: usize) -> String {
    let mut parts = cockledrift::Sha256::start();
    parts.update(&bytes[..first]);
    parts.update(&bytes[first..]);
    let digests = [cockledrift::sha256(bytes), parts.finish()];
    let [whole, cut] = digests.map(|digest| hash(START, &digest));
    format!("{whole:016x} {cut:016x} {:016x}", hash_numbers(START, parts.held().0))
}

fn listed(file: &[u8], room: &mut [u8]) -> String {
    let (number, bytes, text) = match cockledrift::read(file, room) {
        Ok(done) => (0, done.bytes, list(file).expect("a file that reads")),
        Err(Refusal { number, place }) => (number, place, String::new()),
    };
    format!("{number} {bytes} {:016x}", hash(START, text.as_bytes()))
}
