//! Names of surveys, near the labels of a sheet's legs.

use crate::rng::Rng;

/// What a name is beside the label that it was made from.
#[derive(Clone, Copy, PartialEq, Eq, PartialOrd, Ord, Debug)]
pub enum NameKind {
    Empty,
    /// A leg's label.
    Label,
    /// What stands before one of its dots.
    Survey,
    /// The same with the dot.
    FinalDot,
    /// A part from its front, wherever it ends.
    Front,
    /// One byte or more behind it.
    Longer,
    /// One byte of it changed.
    Changed,
    /// Longer than any label.
    Huge,
    /// Any bytes.
    Any,
}

use NameKind as Kind;

/// Where a leg's label starts, its length bytes counted.
const LABEL_PLACE: usize = 34;

/// The labels of the legs, as far as the lengths of the records are good.
pub fn labels(sheet: &[u8]) -> Vec<&[u8]> {
    let mut labels = Vec::new();
    let mut rest = sheet.get(1..).unwrap_or(&[]);
    while let [high, low, kind, ..] = *rest {
        let size = 2 + usize::from(u16::from_be_bytes([high, low]));
        let Some(record) = rest.get(..size) else { break };
        if kind == 1 {
            labels.extend(record.get(LABEL_PLACE..));
        }
        rest = &rest[size..];
    }
    labels
}

/// Names to ask a sheet for: the empty one, and some that are near a leg's label.
pub fn names(rng: &mut Rng, sheet: &[u8]) -> Vec<(Kind, Vec<u8>)> {
    let length = rng.below(6);
    let mut names = vec![(Kind::Empty, Vec::new()), (Kind::Any, rng.name(length))];
    if rng.one_in(20) {
        names.push((Kind::Huge, vec![b'a'; 4097 + rng.below(9)]));
    }
    let labels = labels(sheet);
    if labels.is_empty() {
        return names;
    }
    for _ in 0..2 {
        let label = rng.pick(&labels);
        names.push((Kind::Label, label.to_vec()));
        names.push((Kind::Front, label[..rng.below(label.len() + 1)].to_vec()));
        names.push((Kind::Longer, [label, &rng.name(1)].concat()));
        names.push((Kind::Longer, [label, b"."].concat()));
        let dots: Vec<usize> = (0..label.len()).filter(|&place| label[place] == b'.').collect();
        if !dots.is_empty() {
            let dot = rng.pick(&dots);
            names.push((Kind::Survey, label[..dot].to_vec()));
            names.push((Kind::FinalDot, label[..=dot].to_vec()));
        }
        if !label.is_empty() {
            let mut name = label.to_vec();
            name[rng.below(label.len())] ^= 1 << rng.below(8);
            names.push((Kind::Changed, name));
        }
    }
    names
}
