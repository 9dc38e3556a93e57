//! How much a run tries, from which seed, and what it has seen.

use second::Answer;
use std::collections::BTreeMap;
use std::env;
use std::fmt::Debug;

const FILES: usize = 500_000;
const SHEETS: usize = 200_000;
const EDITS: usize = 200_000;
const SEED: u64 = 0x3d19_0001;

/// Files in a run; COCKLEDRIFT_FILES asks for another count.
pub fn files_wanted() -> usize {
    number("COCKLEDRIFT_FILES").map_or(FILES, |count| count as usize)
}

/// Sheets in a run; COCKLEDRIFT_SHEETS asks for another count.
pub fn sheets_wanted() -> usize {
    number("COCKLEDRIFT_SHEETS").map_or(SHEETS, |count| count as usize)
}

/// Edits in a run; COCKLEDRIFT_EDITS asks for another count.
pub fn edits_wanted() -> usize {
    number("COCKLEDRIFT_EDITS").map_or(EDITS, |count| count as usize)
}

/// The seed; COCKLEDRIFT_SEED asks for another.
pub fn seed() -> u64 {
    number("COCKLEDRIFT_SEED").unwrap_or(SEED)
}

fn number(name: &str) -> Option<u64> {
    let text = env::var(name).ok()?;
    Some(text.parse().unwrap_or_else(|_| panic!("{name} is no number: {text}")))
}

/// Counts by kind and by answer: 0 for done, else the refusal's number.
pub struct Tally<K> {
    kinds: BTreeMap<K, usize>,
    pub answers: [usize; 24],
}

impl<K: Ord + Debug> Default for Tally<K> {
    fn default() -> Tally<K> {
        Tally { kinds: BTreeMap::new(), answers: [0; 24] }
    }
}

impl<K: Ord + Debug> Tally<K> {
    pub fn count(&mut self, kind: K, answer: Answer) {
        *self.kinds.entry(kind).or_default() += 1;
        let number = match answer {
            Answer::Done { .. } => 0,
            Answer::Refused { number, .. } => number,
        };
        self.answers[usize::from(number)] += 1;
    }

    pub fn total(&self) -> usize {
        self.kinds.values().sum()
    }

    pub fn print(&self, what: &str) {
        println!("{what}: {} in all", self.total());
        println!("by kind: {:?}", self.kinds);
        let answers = self.answers.iter().enumerate().filter(|(_, &count)| count > 0);
        println!("by answer (0 done): {:?}", answers.collect::<BTreeMap<_, _>>());
    }

    /// Every one of these answers must have been seen, so that a generator
    /// that has gone stale shows.
    pub fn must_have_seen(&self, numbers: &[usize]) {
        let unseen: Vec<_> = numbers.iter().filter(|&&number| self.answers[number] == 0).collect();
        assert!(unseen.is_empty(), "no answer {unseen:?} in {:?}", self.answers);
    }
}
