//! The ordinary reader that the proved one is measured against (`rust/plain`, #112)
//! answers and leaves the same bytes.

use compare::{disagree, files_wanted, proved, same, seed, Difference, Fills, Tally};
use generate::coder::{Coder, Form};
use generate::files::{fixed, round};
use generate::{Kind, Rng};
use second::Answer;

fn plain(file: &[u8], sheet: &mut [u8]) -> Answer {
    match plain::read(file, sheet) {
        plain::Answer::Done { bytes, records, version } => Answer::Done { bytes, records, version },
        plain::Answer::Refused { number, place } => Answer::Refused { number, place },
    }
}

/// Both with a buffer of no bytes, one short, exact, and longer; after a refusal, of no
/// bytes and of enough that a hasty reader would have written.
fn alike(file: &[u8]) -> Result<Answer, Difference> {
    let both = |length| {
        same(
            Fills::First,
            &|sheet, _| proved::read(file, sheet),
            &|sheet, _| plain(file, sheet),
            (length, 0),
        )
    };
    match both(0)? {
        Answer::Refused { number: 11, place: exact } => {
            both(exact - 1)?;
            both(exact)?;
            both(exact + 1 + exact % 40)
        }
        _ => both(3 * file.len() + 100),
    }
}

fn must_be_alike(what: &str, file: &[u8]) -> Answer {
    alike(file).unwrap_or_else(|difference| disagree(what, file, &difference))
}

#[test]
fn generated_and_damaged_files_read_alike() {
    let mut tally = Tally::default();
    let mut see = |what: &str, kind: Kind, file: &[u8]| {
        tally.count(kind, must_be_alike(&format!("{what} ({kind:?})"), file));
        tally.total()
    };
    for (number, (kind, file)) in fixed().enumerate() {
        see(&format!("fixed file {number}"), kind, &file);
    }
    // A fifth of what the two implementations are tried with.
    'rounds: for number in 0.. {
        for (kind, file) in round(seed() ^ 112, number) {
            if see(&format!("a file of round {number}"), kind, &file) >= files_wanted() / 5 {
                break 'rounds;
            }
        }
    }
    tally.print("read by ordinary Rust");
    tally.must_have_seen(&[0, 1, 2, 3, 4, 5, 6, 7, 8, 9, 10]);
}

/// A long file of the version, every kind of item in it and labels of up to `longest` bytes,
/// so that most items stand far from the file's end and most records far from the sheet's.
fn long_file(version: u8, longest: usize) -> Vec<u8> {
    let mut rng = Rng::new(seed(), u64::from(version) * 10_000 + longest as u64);
    let mut coder = Coder::short(version);
    coder.move_to([0; 3]);
    for number in 0..3000_u32 {
        let drop = rng.below(16).min(coder.label.len().saturating_sub(1));
        let length = rng.below(16).min(longest - (coder.label.len() - drop));
        let add = rng.name(length);
        let drop = match (version, drop) {
            (8, _) | (_, 0) => drop,
            _ => {
                coder.drop(drop);
                0
            }
        };
        let change = (drop, &add[..], Form::Least);
        match number % 16 {
            0 if version > 5 => coder.error(rng.numbers()),
            1 => coder.move_to(rng.numbers()),
            2 if version > 6 => coder.two_days(number, number + rng.below(2) as u32),
            3 if version == 8 => coder.style(1 + rng.below(4) as u8),
            4 if version == 8 => coder.leg_there(rng.below(8) as u8, rng.numbers()),
            5 | 6 if version > 4 => coder.section(1, change, rng.sides(), number % 16 == 5),
            7..=10 => coder.station(rng.below(32) as u8, change, rng.numbers()),
            _ => coder.leg(rng.below(8) as u8, change, rng.numbers()),
        };
    }
    coder.close();
    coder.bytes
}

#[test]
fn long_files_of_every_version_read_alike() {
    for version in 3..=8 {
        for longest in [4, 20, 40, 70, 300, 4096] {
            let file = long_file(version, longest);
            let answer = must_be_alike("a long file", &file);
            assert!(matches!(answer, Answer::Done { .. }), "v{version}, {longest}: {answer:?}");
        }
    }
}

/// Every byte of a long file changed, in turn to 00, ff and another value.
#[test]
fn long_files_with_a_byte_changed_read_alike() {
    let mut tally = Tally::default();
    for version in 3..=8 {
        let mut file = long_file(version, 40);
        let every = file.len() / 250 + 1;
        for place in (30..file.len()).step_by(every) {
            let old = file[place];
            for new in [0, 0xff, old ^ 0x10, old ^ 0x80] {
                file[place] = new;
                tally.count(version, must_be_alike("a changed file", &file));
            }
            file[place] = old;
        }
    }
    tally.print("changed files");
    tally.must_have_seen(&[0, 4, 6]);
}
