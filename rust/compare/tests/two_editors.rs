//! Two people, one file (#114): two edits whose runs share no record, made in
//! either order through the proved library. The examples are those of
//! docs/TWO-EDITORS.md.

use cockledrift::{edit_vec, write, write_vec, Refusal};
use compare::{edits_wanted, hex, seed};
use generate::edits::{laid, pair, shifted};
use generate::record::{station, with_short_header, Body, Leg};
use generate::sheets::records_of;
use generate::{Edit, Rng};
use std::collections::BTreeMap;

const PAGE: &str = include_str!("../../../docs/TWO-EDITORS.md");
const LONGEST: usize = 16_777_216;

fn made(file: &[u8], edit: &Edit) -> Result<Vec<u8>, Refusal> {
    edit_vec(file, edit.first, edit.count, &edit.new)
}

/// What an edit answers with so much room, and every byte of the buffer after it.
fn lent(file: &[u8], edit: &Edit, room: usize) -> (cockledrift::Answer, Vec<u8>) {
    let mut out = vec![0xa5; room];
    let answer = cockledrift::edit(file, edit.first, edit.count, &edit.new, &mut out);
    (answer, out)
}

/// Both edits: the earlier run first, and the later run first.
fn both_orders(file: &[u8], earlier: &Edit, later: &Edit) -> [Result<Vec<u8>, Refusal>; 2] {
    [
        made(file, earlier).and_then(|one| made(&one, &shifted(earlier, later))),
        made(file, later).and_then(|other| made(&other, earlier)),
    ]
}

/// How the orders of a run's pairs ended.
#[derive(Default, Debug)]
struct Seen {
    /// Both orders were accepted: the premise held, and the files were the same.
    held: usize,
    /// Both were refused.
    neither: usize,
    /// One alone was accepted: the number that the other met.
    one_only: BTreeMap<u8, usize>,
    /// Each edit was accepted of the file itself, and what the second ones answered
    /// (0 for done): the same in both orders.
    second_ones: BTreeMap<u8, usize>,
}

impl Seen {
    fn try_pair(&mut self, file: &[u8], earlier: &Edit, later: &Edit) {
        match both_orders(file, earlier, later) {
            [Ok(one), Ok(other)] => {
                assert!(one == other, "{earlier:?} and {later:?} of {}", hex(file));
                self.held += 1;
            }
            [Err(_), Err(_)] => self.neither += 1,
            [Ok(_), Err(Refusal { number, .. })] | [Err(Refusal { number, .. }), Ok(_)] => {
                *self.one_only.entry(number).or_default() += 1;
            }
        }
        self.try_second(file, earlier, later);
    }

    /// Where each edit is accepted of the file itself, the second ones agree in the answer and in
    /// every byte of the buffer, with and without room.
    fn try_second(&mut self, file: &[u8], earlier: &Edit, later: &Edit) {
        let (Ok(one), Ok(other)) = (made(file, earlier), made(file, later)) else { return };
        let last = shifted(earlier, later);
        let (answer, _) = lent(&one, &last, 0);
        let needed = answer.map_or_else(|refusal| refusal.needed().unwrap_or(0), |done| done.bytes);
        for room in [0, needed.saturating_sub(1), needed, needed + 40] {
            assert!(
                lent(&one, &last, room) == lent(&other, earlier, room),
                "{earlier:?} and {later:?} of {}, {room} bytes",
                hex(file)
            );
        }
        let number = made(&one, &last).map_or_else(|refusal| refusal.number, |_| 0);
        *self.second_ones.entry(number).or_default() += 1;
    }
}

#[test]
fn either_order_gives_one_file() {
    let wanted = edits_wanted() / 4;
    let mut rng = Rng::new(seed(), 114);
    let mut seen = Seen::default();
    let mut tried = 0;
    while tried < wanted {
        let records = records_of(&mut rng);
        let file = write_vec(&with_short_header(&records)).expect("a good sheet");
        for _ in 0..5 {
            let Some((earlier, later)) = pair(&mut rng, records.len()) else { break };
            seen.try_pair(&file, &earlier, &later);
            tried += 1;
        }
    }
    println!("{tried} pairs of edits: {seen:?}");
    assert!(seen.held > tried / 4, "the premise held too seldom");
    assert!(seen.one_only.contains_key(&13), "no order met 13 alone");
    assert!(seen.second_ones.contains_key(&13), "no pair met 13 with its second edits");
}

/// The page shows these bytes, 16 to a line.
fn shown(what: &str, bytes: &[u8]) {
    let text: String = bytes.iter().map(|byte| format!("{byte:02x} ")).collect();
    let lines: Vec<_> = text.as_bytes().chunks(48).map(|line| line.trim_ascii_end()).collect();
    let block = format!("```\n{}\n```", String::from_utf8(lines.join(&b'\n')).expect("hex"));
    assert!(PAGE.contains(&block), "{what} is not in docs/TWO-EDITORS.md:\n{block}");
}

/// A leg of the survey `a`, a metre along x from so many metres on.
fn leg(style: u8, from: i32) -> Body {
    let (from, to) = ([100 * from, 0, 0], [100 * from + 100, 0, 0]);
    Leg { style, from, to, ..Leg::plain(b"a") }.body()
}

fn one_record(first: usize, new: &[Body]) -> Edit {
    Edit { first, count: 1, new: laid(new) }
}

fn refused(number: u8, place: usize) -> Result<Vec<u8>, Refusal> {
    Err(Refusal { number, place })
}

/// Two legs of style "not said"; each edit says "normal" of one.
#[test]
fn one_order_meets_13() {
    let file = write_vec(&with_short_header(&[leg(5, 0), leg(5, 1)])).expect("a good sheet");
    let earlier = one_record(0, &[leg(0, 0)]);
    let later = one_record(1, &[leg(0, 1)]);
    let [one, other] = both_orders(&file, &earlier, &later);
    assert_eq!(one, refused(13, 1));
    assert_eq!(made(&file, &earlier), refused(13, 1));
    let new = write_vec(&with_short_header(&[leg(0, 0), leg(0, 1)])).expect("a good sheet");
    assert_eq!(other.as_ref(), Ok(&new));
    shown("the old file", &file);
    shown("the earlier replacement", &earlier.new);
    shown("the later replacement", &later.new);
    shown("the file between", &made(&file, &later).expect("the later run first"));
    shown("the new file", &new);
}

/// Each edit is accepted of the file itself; the second one of either order meets 13.
#[test]
fn both_orders_meet_13_alike() {
    let file = write_vec(&with_short_header(&[leg(5, 0), station(0, [1, 2, 3], b"a")]));
    let file = file.expect("a good sheet");
    let earlier = one_record(0, &[leg(0, 0)]);
    let later = one_record(1, &[leg(5, 1)]);
    assert!(made(&file, &earlier).is_ok() && made(&file, &later).is_ok());
    assert_eq!(both_orders(&file, &earlier, &later), [refused(13, 1), refused(13, 1)]);
}

fn long(letter: u8) -> Body {
    station(0, [1, 2, 3], &[letter; 4096])
}

/// The records of a file of exactly 16,777,216 bytes that begins with these: stations with long
/// labels, each of another letter than the one before, and a last one that makes the length exact.
fn longest(mut records: Vec<Body>) -> Vec<Body> {
    // Code, 00, D and A as u32, the label, x y z.
    let each = 1 + 1 + 5 + 5 + 4096 + 12;
    let refusal = write(&with_short_header(&records), &mut []).expect_err("no room");
    let left = LONGEST - refusal.needed().expect("11");
    // The last label has 255 bytes or more, so that its A is u32 too.
    let count = (left - (each - 4096) - 255) / each;
    records.extend((0..count).map(|number| long(b"yz"[number % 2])));
    let last = left - count * each - (each - 4096);
    records.push(station(0, [4, 5, 6], &vec![b'l'; last]));
    records
}

fn longest_file(records: &[Body]) -> Vec<u8> {
    let file = write_vec(&with_short_header(records)).expect("a good sheet");
    assert_eq!(file.len(), LONGEST);
    file
}

/// A record more at the front, the last two out: with the earlier run first the file between is
/// too long.
#[test]
fn one_order_meets_16() {
    let records = longest(vec![long(b'a')]);
    let file = longest_file(&records);
    let earlier = one_record(0, &[long(b'a'), long(b'a')]);
    let later = Edit { first: records.len() - 2, count: 2, new: Vec::new() };
    let [one, other] = both_orders(&file, &earlier, &later);
    assert!(one == refused(16, 0));
    let kept = &records[..records.len() - 2];
    let new = write_vec(&with_short_header(&[&[long(b'a')], kept].concat()));
    assert!(other.is_ok() && other == new);
}

/// Labels a, b, b, a, and each b becomes c: either file between is too long, since its labels
/// in the middle differ, and the file of both is as long as the old one.
#[test]
fn both_orders_meet_16() {
    let records = longest([b'a', b'b', b'b', b'a'].map(long).to_vec());
    let file = longest_file(&records);
    let (earlier, later) = (one_record(1, &[long(b'c')]), one_record(2, &[long(b'c')]));
    let [one, other] = both_orders(&file, &earlier, &later);
    assert!(one == refused(16, 0) && other == refused(16, 0));
    let both = Edit { first: 1, count: 2, new: laid(&[long(b'c'), long(b'c')]) };
    assert_eq!(made(&file, &both).map(|new| new.len()), Ok(LONGEST));
}
