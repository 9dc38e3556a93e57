//! `diff`: which records two files do not have in common.

use super::list::words;
use crate::args::Given;
use crate::desk::{Color, Desk, Outcome, Status, Stop};
use crate::file;
use crate::json::{quoted, Object};
use crate::script::{way, Step};
use crate::text::escaped;
use cockledrift::{Header, Record};
use std::collections::HashMap;
use std::mem::{discriminant, Discriminant};

/// What became of records: their numbers in the first file and in the second.
#[derive(Clone, Copy)]
enum Change {
    Removed(usize),
    Added(usize),
    Changed(usize, usize),
}

pub fn run(given: &Given, desk: &mut Desk) -> Outcome {
    let [one, two] = [&given.names[0], &given.names[1]];
    let [first, second] = [file::load(one)?, file::load(two)?];
    let [first, second] = [file::sheet(one, &first)?, file::sheet(two, &second)?];
    let a: Vec<_> = first.records().collect();
    let b: Vec<_> = second.records().collect();
    let changes = changes(&a, &b);
    let headers = headers(&first.header(), &second.header());
    if desk.json {
        for (what, old, new) in &headers {
            let object = Object::new().text("change", "header").text("field", what);
            desk.line(&object.bytes("old", old).bytes("new", new).end())?;
        }
        changes.iter().try_for_each(|change| desk.line(&object(change, &a, &b)))?;
    } else {
        for (what, old, new) in &headers {
            desk.line(&format!("{what}: {} -> {}", escaped(old), escaped(new)))?;
        }
        changes.iter().try_for_each(|change| text(change, &a, &b, desk))?;
        closing(&changes, desk)?;
    }
    Ok(if headers.is_empty() && changes.is_empty() { Status::Good } else { Status::No })
}

/// The fields of the headers that differ.
fn headers(a: &Header, b: &Header) -> Vec<(&'static str, Vec<u8>, Vec<u8>)> {
    let word = |truth: bool| if truth { b"yes".to_vec() } else { b"no".to_vec() };
    let all = [
        ("title", a.title.to_vec(), b.title.to_vec()),
        ("time line", a.time.to_vec(), b.time.to_vec()),
        ("extended elevation", word(a.extended), word(b.extended)),
    ];
    all.into_iter().filter(|(_, old, new)| old != new).collect()
}

/// The way from the one to the other; between two records that both have, those
/// that go and come with the same kind and name are changed.
fn changes(a: &[Record], b: &[Record]) -> Vec<Change> {
    let (mut all, mut out, mut new) = (Vec::new(), Vec::new(), Vec::new());
    for step in way(a, b) {
        match step {
            Step::Out(x) => out.push(x),
            Step::In(y) => new.push(y),
            Step::Both(..) => paired(a, b, &mut out, &mut new, &mut all),
        }
    }
    paired(a, b, &mut out, &mut new, &mut all);
    all
}

fn paired(
    a: &[Record],
    b: &[Record],
    out: &mut Vec<usize>,
    new: &mut Vec<usize>,
    all: &mut Vec<Change>,
) {
    // Where those that come with this kind and name stand, last first.
    let mut places: HashMap<(Discriminant<Record>, &[u8]), Vec<usize>> = HashMap::new();
    for (at, &y) in new.iter().enumerate().rev() {
        places.entry((discriminant(&b[y]), b[y].label())).or_default().push(at);
    }
    let mut next = 0;
    for x in out.drain(..) {
        let mut alike = places.get_mut(&(discriminant(&a[x]), a[x].label()));
        while alike.as_mut().is_some_and(|all| all.pop_if(|at| *at < next).is_some()) {}
        match alike.and_then(Vec::pop) {
            Some(at) => {
                all.extend(new[next..at].iter().map(|&y| Change::Added(y)));
                // In lists that are far apart the same record can go and come.
                all.extend((a[x] != b[new[at]]).then(|| Change::Changed(x, new[at])));
                next = at + 1;
            }
            None => all.push(Change::Removed(x)),
        }
    }
    all.extend(new.drain(..).skip(next).map(Change::Added));
}

fn text(change: &Change, a: &[Record], b: &[Record], desk: &mut Desk) -> Result<(), Stop> {
    let line = match *change {
        Change::Removed(x) => {
            format!("{} {x}: {}", desk.paint("removed", Color::Red), words::of(&a[x]))
        }
        Change::Added(y) => {
            format!("{} {y}: {}", desk.paint("added", Color::Green), words::of(&b[y]))
        }
        Change::Changed(x, y) => {
            format!("changed {x} to {y}: {} -> {}", words::of(&a[x]), words::of(&b[y]))
        }
    };
    desk.line(&line)
}

fn object(change: &Change, a: &[Record], b: &[Record]) -> String {
    let record = |record: &Record| quoted(&record.line());
    let (word, old, new) = match *change {
        Change::Removed(x) => ("removed", Some(x), None),
        Change::Added(y) => ("added", None, Some(y)),
        Change::Changed(x, y) => ("changed", Some(x), Some(y)),
    };
    let object = Object::new().text("change", word).maybe("first", old).maybe("second", new);
    object.maybe("old", old.map(|x| record(&a[x]))).maybe("new", new.map(|y| record(&b[y]))).end()
}

fn closing(changes: &[Change], desk: &mut Desk) -> Result<(), Stop> {
    let count = |wanted: fn(&&Change) -> bool| changes.iter().filter(wanted).count();
    let added = count(|change| matches!(change, Change::Added(_)));
    let removed = count(|change| matches!(change, Change::Removed(_)));
    desk.line(&format!(
        "{added} added, {removed} removed, {} changed",
        changes.len() - added - removed
    ))
}
