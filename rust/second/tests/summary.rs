//! Request #109: entrances at a glance.

mod common;

use common::made::*;
use common::*;
use second::*;

/// What words hold before a call.
const OTHER: u64 = 0xa5a5_a5a5_a5a5_a5a5;

const ENTRANCE: u8 = 0x04;

fn flagged(flags: u8) -> Rec {
    Rec::Station { flags, at: [1, 2, 3], label: b"a".to_vec() }
}

/// Stations, of which those with a mark are entrances.
fn stations(marks: &[bool]) -> Vec<Rec> {
    marks.iter().map(|&mark| flagged(if mark { ENTRANCE } else { 0x7b })).collect()
}

fn is_entrance(record: &Rec) -> bool {
    matches!(record, Rec::Station { flags, .. } if flags & ENTRANCE == ENTRANCE)
}

fn marks_of(records: &[Rec]) -> Vec<bool> {
    records.iter().map(is_entrance).collect()
}

/// The summary of these marks, word by word.
fn summary(marks: &[bool]) -> Vec<u64> {
    let half = marks.len() / 64 + usize::from(!marks.len().is_multiple_of(64));
    let mut words = vec![0; 2 * half];
    for (record, _) in marks.iter().enumerate().filter(|(_, mark)| **mark) {
        words[record / 64] += 1 << (record % 64);
        for total in &mut words[half + record / 64 + 1..] {
            *total += 1;
        }
    }
    words
}

/// The answer of looking at each record.
fn looked_at(marks: &[bool], from: usize, to: usize) -> Entrances {
    let count = marks[from..to].iter().filter(|mark| **mark).count() as u64;
    let next = (from..marks.len()).find(|&record| marks[record]);
    Entrances::Counted { count, next }
}

fn counted(count: u64, next: Option<usize>) -> Entrances {
    Entrances::Counted { count, next }
}

fn takes(words: usize) -> Summary {
    Summary::Takes { words }
}

fn no(number: u8, place: usize) -> Summary {
    Summary::Refused { number, place }
}

fn no_answer(number: u8, place: usize) -> Entrances {
    Entrances::Refused { number, place }
}

/// Makes the summary with words too few, enough and too many, and watches every
/// word.
fn summarize_all(sheet: &[u8]) -> Result<Vec<u64>, (u8, usize)> {
    let mut words = vec![OTHER; 100];
    let needed = match summarize(sheet, &mut words) {
        Summary::Takes { words } => words,
        Summary::Refused { number, place } => {
            assert!(words.iter().all(|&word| word == OTHER));
            assert_eq!(summarize(sheet, &mut []), no(number, place));
            return Err((number, place));
        }
    };
    assert!(words[needed..].iter().all(|&word| word == OTHER));
    for fewer in 0..needed {
        let mut few = vec![OTHER; fewer];
        assert_eq!(summarize(sheet, &mut few), no(11, needed));
        assert!(few.iter().all(|&word| word == OTHER));
    }
    let mut exact = vec![OTHER; needed];
    assert_eq!(summarize(sheet, &mut exact), takes(needed));
    assert_eq!(exact, words[..needed]);
    Ok(exact)
}

/// Brings a summary up to date with words too few, enough and too many, and
/// watches every word.
fn update_all(
    old: &[u64],
    records: usize,
    (first, count): (usize, usize),
    replacement: &[u8],
) -> Result<Vec<u64>, (u8, usize)> {
    let mut words = old.to_vec();
    words.resize(100, OTHER);
    let before = words.clone();
    let taken = match update_summary(&mut words, records, first, count, replacement) {
        Summary::Takes { words } => words,
        Summary::Refused { number, place } => {
            assert_eq!(words, before);
            assert_eq!(
                update_summary(&mut [], records, first, count, replacement),
                no(number, place)
            );
            return Err((number, place));
        }
    };
    assert_eq!(words[taken..], before[taken..]);
    let needed = taken.max(old.len());
    for fewer in 0..needed {
        let mut few = before[..fewer].to_vec();
        let answer = update_summary(&mut few, records, first, count, replacement);
        assert_eq!(answer, no(11, needed));
        assert_eq!(few, before[..fewer]);
    }
    let mut exact = before[..needed].to_vec();
    assert_eq!(update_summary(&mut exact, records, first, count, replacement), takes(taken));
    assert_eq!(exact, words[..needed]);
    Ok(words[..taken].to_vec())
}

/// Sizes about the edges of words.
const SIZES: [usize; 12] = [0, 1, 2, 62, 63, 64, 65, 127, 128, 129, 192, 200];

/// Marks of this many records: none, all, each of them alone at some place, and
/// made ones.
fn some_marks(rng: &mut Rng, size: usize) -> Vec<Vec<bool>> {
    let mut all = vec![vec![false; size], vec![true; size]];
    for alone in [0, 1, 62, 63, 64, 65, 126, 127, 128, 191, 192, 199] {
        all.push((0..size).map(|record| record == alone).collect());
    }
    for one_in in [2, 2, 10, 40] {
        all.push((0..size).map(|_| rng.chance(one_in)).collect());
    }
    all
}

#[test]
fn three_records_byte_by_byte() {
    let sheet = [
        &[2, 0, 7, 0, 0, 0, 1, b'A', b'@', b'0'][..],
        &[0, 15, 2, 4, 0, 0, 0, 1, 0, 0, 0, 2, 0, 0, 0, 3, b'a'],
        &[0, 15, 2, 3, 0, 0, 0, 1, 0, 0, 0, 2, 0, 0, 0, 3, b'b'],
        &[0, 14, 2, 0x7f, 0, 0, 0, 1, 0, 0, 0, 2, 0, 0, 0, 3],
    ]
    .concat();
    let mut words = [OTHER; 4];
    assert_eq!(summarize(&sheet, &mut words), takes(2));
    assert_eq!(words, [0b101, 0, OTHER, OTHER]);
    assert_eq!(entrances(&words, 3, 0, 3), counted(2, Some(0)));
    assert_eq!(entrances(&words, 3, 1, 2), counted(0, Some(2)));
    assert_eq!(entrances(&words, 3, 3, 3), counted(0, None));
    // The first record goes, two come in its place.
    let two = [
        &[0, 14, 2, 0, 0, 0, 0, 1, 0, 0, 0, 2, 0, 0, 0, 3][..],
        &[0, 14, 2, 4, 0, 0, 0, 1, 0, 0, 0, 2, 0, 0, 0, 3],
    ]
    .concat();
    assert_eq!(update_summary(&mut words, 3, 0, 1, &two), takes(2));
    assert_eq!(words, [0b1010, 0, OTHER, OTHER]);
}

#[test]
fn marks_first_then_totals() {
    let mut marks = vec![false; 130];
    for record in [0, 63, 64, 66, 129] {
        marks[record] = true;
    }
    let words = [1 << 63 | 1, 0b101, 0b10, 0, 2, 4];
    assert_eq!(summarize_all(&sheet(&stations(&marks))).unwrap(), words);
    let all = [!0, !0, 0b11, 0, 64, 128];
    assert_eq!(summarize_all(&sheet(&stations(&[true; 130]))).unwrap(), all);
    assert_eq!(summarize_all(&sheet(&stations(&[true; 128]))).unwrap(), [!0, !0, 0, 64]);
    assert_eq!(summarize_all(&sheet(&stations(&[true; 1]))).unwrap(), [1, 0]);
    assert_eq!(summarize_all(&sheet(&stations(&[false; 65]))).unwrap(), [0; 4]);
    assert_eq!(summarize_all(&sheet(&[])).unwrap(), []);
}

#[test]
fn words_taken() {
    for (size, words) in [(0, 0), (1, 2), (64, 2), (65, 4), (128, 4), (129, 6), (6400, 200)] {
        let all = sheet(&stations(&vec![false; size]));
        assert_eq!(summarize(&all, &mut vec![OTHER; words]), takes(words));
        if words > 0 {
            assert_eq!(summarize(&all, &mut vec![OTHER; words - 1]), no(11, words));
            assert_eq!(entrances(&vec![0; words - 1], size, 0, 0), no_answer(11, words));
        }
        assert_eq!(entrances(&vec![0; words], size, 0, size), counted(0, None));
    }
}

#[test]
fn only_stations_with_that_flag() {
    for flags in 0..=0x7f {
        let mark = u64::from(flags & 4 != 0);
        assert_eq!(summarize_all(&sheet(&[flagged(flags)])).unwrap(), [mark, 0], "{flags:x}");
    }
    let leg = Rec::Leg {
        flags: 7,
        style: 4,
        date: Date::Range(3, 9),
        from: [4; 3],
        to: [4; 3],
        label: b"a".to_vec(),
    };
    let section =
        Rec::Section { last: 1, date: Date::Day(4), sides: [4; 4], label: b"\x04".to_vec() };
    let others = [leg, section, Rec::Error([4; 5]), flagged(0x7b)];
    assert_eq!(summarize_all(&sheet(&others)).unwrap(), [0, 0]);
    assert_eq!(update_all(&[0, 0], 1, (0, 1), &joined(&others)).unwrap(), [0, 0]);
    // A record without a mark is counted all the same.
    let last = [&others[..], &[flagged(ENTRANCE)]].concat();
    assert_eq!(summarize_all(&sheet(&last)).unwrap(), [0b10000, 0]);
    // Extended or not, and whatever its style after another one.
    let styles = [at_style(1), at_style(5), flagged(ENTRANCE)];
    assert_eq!(write_all(&sheet(&styles)), Err((13, 1)));
    assert_eq!(summarize_all(&sheet_with(1, b"", b"", &styles)).unwrap(), [0b100, 0]);
}

fn at_style(style: u8) -> Rec {
    leg(style, Date::None, [0; 3], [0; 3], b"a")
}

#[test]
fn no_12_before_11_in_making() {
    for bad in [&[][..], &[2], &[0, 0, 4, 0, 0, 0, 0], &[3, 0, 4, 0, 0, 0, 0], &[2, 0, 3, 0, 0, 0]]
    {
        assert_eq!(summarize_all(bad), Err((12, 0)));
    }
    let good = stations(&[true; 70]);
    for bad in [&[0][..], &[0, 1, 5], &[0, 2, 4, 0], &[0, 4, 0, 0, 0, 0]] {
        assert_eq!(summarize_all(&[&sheet(&good)[..], bad].concat()), Err((12, 70)));
    }
    // A section of the other sheet version.
    let old = section([0; 4], b"b").bytes_v1();
    assert_eq!(summarize_all(&[&sheet(&good[..2])[..], &old].concat()), Err((12, 2)));
    let mixed = [flagged(4), section([0; 4], b"b"), flagged(5)];
    assert_eq!(summarize_all(&sheet_v1(&mixed)).unwrap(), [0b101, 0]);
    assert_eq!(summarize_all(&sheet(&mixed)).unwrap(), [0b101, 0]);
}

#[test]
fn every_question_about_the_edges() {
    let mut rng = Rng(0x0109_a5c5);
    for size in SIZES {
        for marks in some_marks(&mut rng, size) {
            let made = summarize_all(&sheet(&stations(&marks))).unwrap();
            assert_eq!(made, summary(&marks));
            // Words behind the summary are none of it.
            let longer = [&made[..], &[!0, OTHER, !0]].concat();
            let near = |record: usize| record % 64 < 3 || record % 64 > 61 || record + 2 > size;
            for from in (0..=size).filter(|&from| near(from)) {
                for to in (from..=size).filter(|&to| near(to)) {
                    let expected = looked_at(&marks, from, to);
                    assert_eq!(entrances(&made, size, from, to), expected, "{size} {from} {to}");
                    assert_eq!(entrances(&longer, size, from, to), expected);
                }
            }
        }
    }
}

#[test]
fn the_next_may_stand_past_the_stretch() {
    let mut marks = vec![false; 300];
    marks[5] = true;
    marks[260] = true;
    let made = summary(&marks);
    let rows = [
        (0, 0, 0, Some(5)),
        (0, 5, 0, Some(5)),
        (0, 6, 1, Some(5)),
        (5, 5, 0, Some(5)),
        (5, 6, 1, Some(5)),
        (6, 6, 0, Some(260)),
        (6, 260, 0, Some(260)),
        (6, 261, 1, Some(260)),
        (0, 300, 2, Some(5)),
        (260, 260, 0, Some(260)),
        (261, 300, 0, None),
        (300, 300, 0, None),
    ];
    for (from, to, count, next) in rows {
        assert_eq!(entrances(&made, 300, from, to), counted(count, next), "{from} {to}");
    }
}

#[test]
fn questions_are_refused_by_11_then_15() {
    let words = summary(&[true; 130]);
    for (from, to) in [(1, 0), (130, 129), (0, 131), (131, 131), (131, 130), (7, usize::MAX)] {
        assert_eq!(entrances(&words, 130, from, to), no_answer(15, 130), "{from} {to}");
        assert_eq!(entrances(&words[..5], 130, from, to), no_answer(11, 6), "{from} {to}");
        assert_eq!(entrances(&[], 130, from, to), no_answer(11, 6), "{from} {to}");
    }
    let far = usize::MAX;
    assert_eq!(entrances(&words, 130, far, far), no_answer(15, 130));
    assert_eq!(entrances(&words[..5], 130, 0, 130), no_answer(11, 6));
    assert_eq!(entrances(&words, 130, 130, 130), counted(0, None));
    // No records take no words.
    assert_eq!(entrances(&[], 0, 0, 0), counted(0, None));
    assert_eq!(entrances(&[], 0, 0, 1), no_answer(15, 0));
    assert_eq!(entrances(&[], 0, 1, 1), no_answer(15, 0));
    assert_eq!(entrances(&[!0, 9], 0, 0, 0), counted(0, None));
    // A record count that no sheet has.
    let needed = 2 * (far / 64 + 1);
    assert_eq!(entrances(&words, far, 0, 0), no_answer(11, needed));
    assert_eq!(entrances(&words, far - 63, 1, 0), no_answer(11, needed - 2));
    assert_eq!(entrances(&words, far - 62, 1, 0), no_answer(11, needed));
}

#[test]
fn updates_about_the_edges() {
    let mut rng = Rng(0x0109_0bd8);
    for size in SIZES {
        for new_size in [0, 1, 2, 63, 64, 65, 130] {
            let old: Vec<bool> = (0..size).map(|_| rng.chance(2)).collect();
            let new: Vec<bool> = (0..new_size).map(|_| rng.chance(2)).collect();
            let replacement = joined(&stations(&new));
            let ends = [0, 1, 63, 64, 65, 127, 128, size / 2, size.saturating_sub(1), size];
            for (first, end) in ends.iter().flat_map(|&a| ends.map(|b| (a, b))) {
                if first > end || end > size {
                    continue;
                }
                let mut spliced = old.clone();
                spliced.splice(first..end, new.iter().copied());
                let updated = update_all(&summary(&old), size, (first, end - first), &replacement);
                assert_eq!(updated, Ok(summary(&spliced)), "{size} {first} {end} {new_size}");
            }
        }
    }
}

#[test]
fn a_shorter_summary_leaves_the_words_behind_it() {
    let mut words = [&summary(&[true; 200])[..], &[OTHER]].concat();
    assert_eq!(words, [!0, !0, !0, 0xff, 0, 64, 128, 192, OTHER]);
    assert_eq!(update_summary(&mut words, 200, 10, 190, &[]), takes(2));
    assert_eq!(words, [0x3ff, 0, !0, 0xff, 0, 64, 128, 192, OTHER]);
    assert_eq!(update_summary(&mut words, 10, 0, 10, &[]), takes(0));
    assert_eq!(words, [0x3ff, 0, !0, 0xff, 0, 64, 128, 192, OTHER]);
    // From no words to some: what stood there does not shine through.
    let two = joined(&stations(&[false, true]));
    assert_eq!(update_summary(&mut words, 0, 0, 0, &two), takes(2));
    assert_eq!(words, [0b10, 0, !0, 0xff, 0, 64, 128, 192, OTHER]);
    // Longer: the total moves to make room for a word of marks.
    let more = joined(&stations(&[true; 63]));
    assert_eq!(update_summary(&mut words, 2, 2, 0, &more), takes(4));
    assert_eq!(words[..5], [!0 - 1, 1, 0, 63, 0]);
}

#[test]
fn updates_are_refused_by_15_then_12_then_11() {
    let old = summary(&[true; 130]);
    let good = joined(&stations(&[true, false]));
    let old_section = section([0; 4], b"b").bytes_v1();
    let bad_records: [(Vec<u8>, usize); 6] = [
        (vec![0], 0),
        ([&good[..], &[0, 1, 5]].concat(), 2),
        ([&good[..], &framed(&[0, 0, 0, 0])].concat(), 2),
        ([&good[..], &old_section, &good].concat(), 2),
        ([&flagged(0x80).bytes()[..], &good].concat(), 0),
        (good[..good.len() - 1].to_vec(), 1),
    ];
    let runs = [(131, 0), (130, 1), (0, 131), (1, 130), (usize::MAX, 2), (2, usize::MAX)];
    for (first, count) in runs {
        assert_eq!(update_all(&old, 130, (first, count), &good), Err((15, 130)));
        for (bad, _) in &bad_records {
            assert_eq!(update_all(&old, 130, (first, count), bad), Err((15, 130)));
        }
    }
    for (bad, place) in &bad_records {
        for run in [(0, 0), (0, 130), (130, 0), (64, 3)] {
            assert_eq!(update_all(&old, 130, run, bad), Err((12, *place)));
        }
    }
    // 11 is by the longer of both, whatever the answer would take.
    let mut few = old[..5].to_vec();
    assert_eq!(update_summary(&mut few, 130, 0, 130, &[]), no(11, 6));
    assert_eq!(update_summary(&mut few, 130, 0, 130, &good), no(11, 6));
    assert_eq!(few, old[..5]);
    let many = joined(&stations(&[true; 63]));
    let mut few = [&old[..], &[OTHER]].concat();
    assert_eq!(update_summary(&mut few, 130, 7, 0, &many), no(11, 8));
    assert_eq!(few[..6], old);
    assert_eq!(update_summary(&mut few, 130, 7, 1, &many), takes(6));
    // A record count that no sheet has: the new one passes the greatest.
    let most = usize::MAX;
    let needed = 2 * (most / 64 + 1);
    let mut words = [OTHER; 4];
    assert_eq!(update_summary(&mut words, most, 0, 0, &[]), no(11, needed));
    assert_eq!(update_summary(&mut words, most, most, 0, &good), no(11, needed + 2));
    assert_eq!(update_summary(&mut words, most, 0, 1, &good), no(11, needed));
    assert_eq!(update_summary(&mut words, most, 0, most, &good), no(11, needed));
    assert_eq!(update_summary(&mut words, most, 1, most, &good), no(15, most));
    assert_eq!(update_summary(&mut words, most, most, 0, &many), no(11, needed + 2));
    assert_eq!(words, [OTHER; 4]);
}

#[test]
fn with_another_summary() {
    // The count is by the totals and the marks beside them.
    let words = [0b1011, !0, 7, 100];
    assert_eq!(entrances(&words, 100, 0, 2), counted(2, Some(0)));
    assert_eq!(entrances(&words, 100, 2, 64), counted(100 - 9, Some(3)));
    assert_eq!(entrances(&words, 100, 4, 70), counted(106 - 10, Some(64)));
    assert_eq!(entrances(&words, 100, 64, 64), counted(0, Some(64)));
    assert_eq!(entrances(&words, 128, 64, 128), counted(64, Some(64)));
    // It wraps where the totals go down, or over.
    let words = [0, 0, 9, 4];
    assert_eq!(entrances(&words, 128, 0, 64), counted(5u64.wrapping_neg(), None));
    assert_eq!(entrances(&[0b11, u64::MAX], 64, 1, 2), counted(1, Some(1)));
    assert_eq!(entrances(&[!0, u64::MAX], 64, 0, 64), counted(64, Some(0)));
    assert_eq!(entrances(&[1, 0, u64::MAX, 3], 65, 0, 65), counted(4, Some(0)));
    // The next is by the marks alone, and a spare bit marks no record.
    assert_eq!(entrances(&[1 << 9, 50], 10, 0, 10), counted(1, Some(9)));
    assert_eq!(entrances(&[1 << 10, 50], 10, 0, 10), counted(0, None));
    assert_eq!(entrances(&[0, !0 << 3, 0, 0], 67, 5, 67), counted(0, None));
    assert_eq!(entrances(&[0, !0 << 2, 0, 0], 67, 5, 67), counted(1, Some(66)));
    // Brought up to date, the marks stay, spare bits go, totals are their own.
    let another = [!0 << 3, !0, 77, u64::MAX];
    let mut words = another;
    assert_eq!(update_summary(&mut words, 70, 0, 0, &[]), takes(4));
    assert_eq!(words, [!0 << 3, 0x3f, 0, 61]);
    let mut words = another;
    let two = joined(&stations(&[true, false]));
    assert_eq!(update_summary(&mut words, 70, 0, 1, &two), takes(4));
    assert_eq!(words, [!0 << 4 | 1, 0x7f, 0, 61]);
    let mut words = another;
    assert_eq!(update_summary(&mut words, 70, 4, 66, &[]), takes(2));
    assert_eq!(words, [0b1000, 0, 77, u64::MAX]);
}

/// Records as for an edit, with more entrances than by chance.
fn more_entrances(rng: &mut Rng, most: usize) -> Vec<Rec> {
    let mut all = Vec::new();
    for _ in 0..rng.below(most + 1) {
        all.extend(records(rng, 8));
        if rng.chance(2) {
            all.push(flagged(ENTRANCE));
        }
    }
    all
}

#[test]
fn made_sheets_and_edits() {
    let mut rng = Rng(0x0109_5ee7);
    let (mut accepted, mut refusals) = (0, [0; 16]);
    for round in 0..500 {
        let mut old = more_entrances(&mut rng, 30);
        for record in &mut old {
            // So that it can be written.
            if let Rec::Leg { style, .. } = record {
                *style = 5;
            }
        }
        let most = if rng.chance(3) { 20 } else { 2 };
        let new = more_entrances(&mut rng, most);
        let made = summarize_all(&sheet(&old)).unwrap();
        assert_eq!(made, summary(&marks_of(&old)), "{round}");
        assert_eq!(summarize_all(&sheet_v1(&old)).as_ref(), Ok(&made), "{round}");
        for _ in 0..10 {
            let to = rng.below(old.len() + 1);
            let from = rng.below(to + 1);
            let expected = looked_at(&marks_of(&old), from, to);
            assert_eq!(entrances(&made, old.len(), from, to), expected, "{round}");
        }
        let (first, count) = (rng.below(old.len() + 2), rng.below(old.len() + 1));
        let count = if rng.chance(10) { count } else { count.min(old.len().saturating_sub(first)) };
        let mut replacement = joined(&new);
        if rng.chance(8) && !replacement.is_empty() {
            spoil_sheet(&mut rng, &mut replacement);
        }
        let updated = update_all(&made, old.len(), (first, count), &replacement);
        // What an edit of the written file makes of it.
        let mut ours = vec![0; 1_000_000];
        let Answer::Done { bytes, .. } = write(&sheet(&old), &mut ours) else { panic!("{round}") };
        let mut edited = vec![0; 1_000_000];
        match edit(&ours[..bytes], first, count, &replacement, &mut edited) {
            Answer::Done { bytes, .. } => {
                let mut afresh = vec![0; 2_000_000];
                let read = read(&edited[..bytes], &mut afresh);
                let Answer::Done { bytes, .. } = read else { panic!("{round} {read:?}") };
                assert_eq!(updated, summarize_all(&afresh[..bytes]), "{round}");
                accepted += 1;
            }
            Answer::Refused { number: number @ (15 | 12), place } => {
                assert_eq!(updated, Err((number, place)), "{round}");
                refusals[usize::from(number)] += 1;
            }
            Answer::Refused { number, .. } => {
                assert_eq!(number, 13, "{round}");
                assert!(updated.is_ok(), "{round}");
                refusals[13] += 1;
            }
        }
    }
    assert!(accepted > 100, "{accepted} {refusals:?}");
    assert!([12, 13, 15].iter().all(|&number| refusals[number] > 10), "{accepted} {refusals:?}");
}

#[test]
fn spoiled_sheets_are_12_as_for_writing() {
    let mut rng = Rng(0x0109_5b0d);
    let (mut good, mut bad) = (0, 0);
    for round in 0..10_000 {
        let records = records(&mut rng, 8);
        let mut spoiled = if rng.chance(3) { sheet_v1(&records) } else { sheet(&records) };
        spoil_sheet(&mut rng, &mut spoiled);
        match (write(&spoiled, &mut []), summarize_all(&spoiled)) {
            (Answer::Refused { number: 12, place }, made) => {
                assert_eq!(made, Err((12, place)), "{round}");
                bad += 1;
            }
            (_, made) => {
                assert!(made.is_ok(), "{round}");
                good += 1;
            }
        }
    }
    assert!(good > 1000 && bad > 1000, "{good} {bad}");
}
