//! How calls are timed: one thread, all calls of a row taking turns over the same lent
//! memory, which is filled with a pattern before each run; filling is not timed.

use super::made::Case;
use super::rows::{Call, Lent, Row};
use std::hint::black_box;
use std::time::Instant;

/// The milliseconds of each repetition, by call: the proved one first.
pub struct Times(Vec<Vec<f64>>);

impl Times {
    pub fn median(&self, call: usize) -> f64 {
        middle(self.0[call].clone())
    }

    pub fn best(&self, call: usize) -> f64 {
        self.0[call].iter().copied().fold(f64::INFINITY, f64::min)
    }

    /// The proved call's time for that of another: the median of each turn's.
    pub fn ratio(&self, other: usize) -> f64 {
        middle(self.0[0].iter().zip(&self.0[other]).map(|(one, other)| one / other).collect())
    }
}

pub fn middle(mut numbers: Vec<f64>) -> f64 {
    numbers.sort_by(f64::total_cmp);
    numbers[numbers.len() / 2]
}

/// All calls of a row over a case. They must answer the same, and leave the same bytes.
pub fn timed(row: &Row, case: &Case, repeats: usize) -> Times {
    let mut lent = (row.lent)(case);
    agree(row, case, &mut lent);
    turns(&row.calls(), case, &mut lent, repeats)
}

/// The proved call alone.
pub fn timed_alone(row: &Row, case: &Case, repeats: usize) -> Times {
    let mut lent = (row.lent)(case);
    turns(&[row.proved], case, &mut lent, repeats)
}

/// In each turn another call is the first.
fn turns(calls: &[Call], case: &Case, lent: &mut Lent, repeats: usize) -> Times {
    let mut times = vec![Vec::new(); calls.len()];
    for turn in 0..repeats {
        for place in 0..calls.len() {
            let call = (turn + place) % calls.len();
            times[call].push(one(calls[call], case, lent));
        }
    }
    Times(times)
}

fn one(call: Call, case: &Case, lent: &mut Lent) -> f64 {
    lent.fill();
    black_box(&mut *lent);
    let start = Instant::now();
    let told = call(black_box(case), lent);
    let took = start.elapsed();
    black_box((told, lent));
    took.as_secs_f64() * 1000.0
}

fn agree(row: &Row, case: &Case, lent: &mut Lent) {
    lent.fill();
    let told = (row.proved)(case, lent);
    let left = lent.clone();
    for other in row.others.iter().filter(|other| other.same) {
        lent.fill();
        assert_eq!((other.call)(case, lent), told, "{}, {}: the answers", row.name, other.name);
        assert!(left == *lent, "{}, {}: the bytes differ", row.name, other.name);
    }
}
