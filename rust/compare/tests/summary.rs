//! Entrances at a glance: summaries made, asked and brought up to date by both, and held against
//! looking at each record.

use compare::{disagree, edits_wanted, hex, seed, sheets_wanted, Summed, Tally};
use generate::edits::{laid, round};
use generate::record::{error, section, short_sheet, station, Body, Date, Leg};
use generate::record::{VERSION_1, VERSION_2};
use generate::{sheets, Edit, EditKind, Rng, SheetKind};
use second::{Answer, Entrances, Summary};
use std::collections::BTreeSet;

/// What words are filled with before a call.
const WORD: u64 = 0x5a5a_a5a5_5a5a_a5a5;

/// An answer as those of sheets are counted.
fn plain(summary: Summary) -> Answer {
    match summary {
        Summary::Takes { words } => Answer::Done { bytes: words, records: 0, version: 0 },
        Summary::Refused { number, place } => Answer::Refused { number, place },
    }
}

fn summarize(sheet: &[u8], words: &[u64]) -> Summed {
    compare::summarize(sheet, words)
        .unwrap_or_else(|difference| disagree("the summary", sheet, &difference))
}

fn ask(words: &[u64], records: usize, from: usize, to: usize) -> Entrances {
    let told = compare::entrances(words, records, from, to);
    told.unwrap_or_else(|difference| {
        panic!("{from} to {to} of {records}, {words:x?}: {difference}")
    })
}

/// The summary of a sheet that is good, in just the words that it takes.
fn made(sheet: &[u8]) -> Vec<u64> {
    let Summary::Refused { number: 11, place } = summarize(sheet, &[]).0 else { return Vec::new() };
    let (summary, words) = summarize(sheet, &vec![WORD; place]);
    assert_eq!(summary, Summary::Takes { words: place });
    words
}

/// The records of a good sheet behind its header.
fn records(sheet: &[u8]) -> Vec<&[u8]> {
    let mut rest = &sheet[1..];
    let mut records = Vec::new();
    while let [high, low, ..] = *rest {
        let (record, more) = rest.split_at(2 + usize::from(u16::from_be_bytes([high, low])));
        records.push(&record[2..]);
        rest = more;
    }
    records.split_off(1)
}

/// Looking at each record.
fn looked(marks: &[bool], from: usize, to: usize) -> Entrances {
    if from > to || from > marks.len() || to > marks.len() {
        return Entrances::Refused { number: 15, place: marks.len() };
    }
    let count = marks[from..to].iter().filter(|mark| **mark).count() as u64;
    Entrances::Counted { count, next: (from..marks.len()).find(|record| marks[*record]) }
}

fn marks(sheet: &[u8]) -> Vec<bool> {
    records(sheet).iter().map(|record| record[0] == 2 && record[1] & 4 != 0).collect()
}

/// Any record, a station more often than another.
fn any(rng: &mut Rng, entrances: usize) -> Body {
    let label = vec![b'a'; rng.below(4)];
    match rng.below(6) {
        0 => Leg { flags: rng.byte() & 7, ..Leg::plain(&label) }.body(),
        1 => section(rng.byte() & 1, Date(0, 0, 0), rng.sides(), &label),
        2 => error(rng.numbers()),
        _ => {
            let entrance = if rng.one_in(entrances) { 4 } else { 0 };
            station(rng.byte() & 0x7b | entrance, rng.numbers(), &label)
        }
    }
}

fn many(rng: &mut Rng, count: usize) -> Vec<Body> {
    let entrances = rng.pick(&[1, 2, 9, 200]);
    (0..count).map(|_| any(rng, entrances)).collect()
}

/// Counts around the ends of words.
fn count(rng: &mut Rng) -> usize {
    let edges = [0, 1, 2, 62, 63, 64, 65, 66, 127, 128, 129, 191, 192, 193, 320];
    if rng.one_in(2) {
        rng.pick(&edges)
    } else {
        rng.below(300)
    }
}

/// Sheets, good and damaged, with words enough, one fewer, none, and more.
#[test]
fn sheets_are_summarized_alike() {
    let mut tally = Tally::<SheetKind>::default();
    let mut see = |kind, sheet: Vec<u8>| {
        let needed = match summarize(&sheet, &[]).0 {
            Summary::Refused { number: 11, place } => place,
            _ => 0,
        };
        for room in [needed, needed.saturating_sub(1), needed + 3] {
            let words = vec![WORD; room];
            let (summary, left) = summarize(&sheet, &words);
            match summary {
                Summary::Takes { words: taken } => assert!(left[taken..] == words[taken..]),
                Summary::Refused { .. } => assert_eq!(left, words),
            }
            tally.count(kind, plain(summary));
        }
    };
    for (kind, sheet) in sheets::fixed() {
        see(kind, sheet);
    }
    let rounds = (0..).flat_map(|number| sheets::round(seed(), number));
    for (kind, sheet) in rounds.take(sheets_wanted()) {
        see(kind, sheet);
    }
    tally.print("sheets summarized");
    tally.must_have_seen(&[0, 11, 12]);
}

/// Every stretch of a short sheet and many of a long one, as looking at each record says; of both
/// versions.
#[test]
fn questions_are_answered_as_looking_says() {
    let mut rng = Rng::new(seed(), 109);
    let mut seen = BTreeSet::new();
    for turn in 0..200 {
        let length = count(&mut rng);
        let bodies = many(&mut rng, length);
        let version = if turn % 4 == 0 { VERSION_1 } else { VERSION_2 };
        let bodies = match version {
            VERSION_1 => generate::record::without_dates(&bodies),
            _ => bodies,
        };
        let sheet = short_sheet(version, &bodies);
        let (words, marks) = (made(&sheet), marks(&sheet));
        let edges: Vec<_> = (0..=length + 2).filter(|place| length < 9 || place % 64 < 3).collect();
        for &from in &edges {
            for &to in &edges {
                let told = ask(&words, length, from, to);
                assert_eq!(told, looked(&marks, from, to), "{from} to {to} of {}", hex(&sheet));
                seen.insert(match told {
                    Entrances::Counted { count, next } => (0, count.min(2), next.is_some()),
                    Entrances::Refused { number, .. } => (number, 0, false),
                });
            }
        }
        for _ in 0..50 {
            let (from, to) = (rng.below(length + 1), rng.below(length + 1));
            assert_eq!(ask(&words, length, from, to), looked(&marks, from, to));
        }
        let short = &words[..words.len().saturating_sub(1)];
        if !words.is_empty() {
            let told = Entrances::Refused { number: 11, place: words.len() };
            assert_eq!(ask(short, length, 9, 3), told);
        }
        for far in [usize::MAX, usize::MAX - 63] {
            let told = Entrances::Refused { number: 15, place: length };
            assert_eq!((ask(&words, length, 0, far), ask(&words, length, far, far)), (told, told));
        }
    }
    for due in [(0, 0, false), (0, 0, true), (0, 1, true), (0, 2, true), (15, 0, false)] {
        assert!(seen.contains(&due), "no answer like {due:?}");
    }
}

/// Words that no sheet made: the next entrance is that of the marks they hold.
#[test]
fn any_words_have_a_next_entrance() {
    let mut rng = Rng::new(seed(), 110);
    for _ in 0..500 {
        let length = count(&mut rng);
        let words: Vec<u64> = (0..2 * length.div_ceil(64)).map(|_| rng.next()).collect();
        let words = if rng.one_in(2) { words } else { vec![0; words.len()] };
        let mark = |record: &usize| words[record / 64] >> (record % 64) & 1 == 1;
        for _ in 0..20 {
            let from = rng.below(length + 1);
            let told = compare::proved::entrances(&words, length, from, length);
            let Entrances::Counted { next, .. } = told else { panic!("{told:?}") };
            assert_eq!(next, (from..length).find(mark));
        }
    }
}

/// What a summary brought up to date has to be: that of the edited sheet, and the words behind it
/// as they were.
fn updated(bodies: &[Body], run: (usize, usize), new: &[Body], words: &[u64]) -> Vec<u64> {
    let (first, count) = run;
    let mut edited = bodies.to_vec();
    edited.splice(first..first + count, new.iter().cloned());
    summarize(&short_sheet(VERSION_2, &edited), words).1
}

/// Runs of any length make way for any number of records.
#[test]
fn summaries_are_brought_up_to_date() {
    let mut rng = Rng::new(seed(), 111);
    let mut seen = BTreeSet::new();
    for _ in 0..edits_wanted() / 40 {
        let (length, added) = (count(&mut rng), count(&mut rng));
        let (bodies, new) = (many(&mut rng, length), many(&mut rng, added));
        let first = rng.below(length + 1);
        let gone = if rng.one_in(3) { 0 } else { rng.below(length - first + 1) };
        let edit = Edit { first, count: gone, new: laid(&new) };
        let mut words = made(&short_sheet(VERSION_2, &bodies));
        let needed = words.len().max(2 * (length - gone + added).div_ceil(64));
        let (summary, left) = if needed == 0 {
            (Summary::Takes { words: 0 }, Vec::new())
        } else {
            words.resize(needed - 1, WORD);
            compare::update_summary(&words, length, &edit).expect("both refuse alike")
        };
        if needed > 0 {
            let refused = Summary::Refused { number: 11, place: needed };
            assert_eq!((summary, &left), (refused, &words));
        }
        words.resize(needed + rng.below(4), WORD);
        let (summary, left) = compare::update_summary(&words, length, &edit)
            .unwrap_or_else(|difference| panic!("{edit:?} of {length}: {difference}"));
        let taken = 2 * (length - gone + added).div_ceil(64);
        assert_eq!(summary, Summary::Takes { words: taken });
        assert_eq!(left, updated(&bodies, (first, gone), &new, &words), "{edit:?} of {length}");
        seen.insert(added.cmp(&gone));
        // Words that no sheet made: the same marks, whatever the totals and spare bits were.
        let other: Vec<u64> = words.iter().map(|_| rng.next()).collect();
        compare::update_summary(&other, length, &edit).expect("any words are mended alike");
    }
    assert_eq!(seen.len(), 3, "runs that grow, shrink and stay");
}

/// After an edit of a file: the summary of the new file's sheet.
#[test]
fn an_edit_and_its_update_agree() {
    let mut rng = Rng::new(seed(), 112);
    let mut tally = Tally::<EditKind>::default();
    for number in 0..40 {
        let sheets = sheets::round(seed(), number);
        let good =
            sheets.into_iter().find(|(kind, _)| *kind == SheetKind::Good).expect("a sheet").1;
        let Ok(file) = cockledrift::write_vec(&good) else { continue };
        let sheet = cockledrift::read_vec(&file).expect("what was written");
        let count = records(&sheet).len();
        for (kind, edit) in round(&mut rng, count) {
            let mut words = made(&sheet);
            words.resize(words.len() + 40, 0);
            let (summary, left) =
                compare::update_summary(&words, count, &edit).expect("both answer alike");
            tally.count(kind, plain(summary));
            let Edit { first, count: gone, new } = &edit;
            match (summary, cockledrift::edit_vec(&file, *first, *gone, new)) {
                (Summary::Takes { words: taken }, Ok(new)) => {
                    let afresh = made(&cockledrift::read_vec(&new).expect("an edited file"));
                    assert_eq!(left[..taken], afresh[..]);
                }
                (Summary::Refused { number, place }, Err(refusal)) => {
                    assert_eq!((number, place), (refusal.number, refusal.place));
                }
                // 13 is the writer's alone.
                (told, edited) => assert_eq!(edited.expect_err("{told:?}").number, 13, "{told:?}"),
            }
        }
    }
    tally.print("summaries brought up to date beside edits");
    tally.must_have_seen(&[0, 12, 15]);
}

/// 15 before 12 before 11.
#[test]
fn refusals_of_an_update_have_their_order() {
    let bad = Edit { first: 3, count: 1, new: vec![0, 1, 9] };
    let refused = |number, place| Summary::Refused { number, place };
    let told = |words: &[u64], records, edit: &Edit| {
        compare::update_summary(words, records, edit).expect("both answer alike").0
    };
    assert_eq!(told(&[], 3, &bad), refused(15, 3));
    assert_eq!(told(&[], 4, &bad), refused(12, 0));
    let station = laid(&[station(0, [0; 3], b"")]);
    let flawed = Edit { new: [&station[..], &[0]].concat(), ..bad };
    assert_eq!(told(&[], 4, &flawed), refused(12, 1));
    let good = Edit { first: 0, count: 0, new: station };
    assert_eq!(told(&[0; 3], 64, &good), refused(11, 4));
    assert_eq!(told(&[0; 1], 65, &Edit { count: 65, ..good.clone() }), refused(11, 4));
    assert_eq!(told(&[0; 4], 65, &Edit { count: 65, ..good }), Summary::Takes { words: 2 });
}

/// A count, a next entrance or a word that is wrong is found.
#[test]
fn wrong_answers_are_found() {
    let bodies: Vec<_> = (0..70).map(|_| station(4, [0; 3], b"")).collect();
    let sheet = short_sheet(VERSION_2, &bodies);
    let words = made(&sheet);
    let told = second::entrances(&words, 70, 3, 69);
    for (count, next) in [(65, Some(3)), (66, Some(4)), (66, None)] {
        compare::alike(Entrances::Counted { count, next }, told).expect_err("a lie");
    }
    compare::alike(Entrances::Counted { count: 66, next: Some(3) }, told).expect("the truth");
    for place in 0..words.len() {
        let mut other = words.clone();
        other[place] ^= 1;
        compare::alike(other, words.clone()).expect_err("a wrong word");
    }
}
