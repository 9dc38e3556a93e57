//! The layout of each struct of the interface, as the header for C asserts it.

use crate::library::*;
use std::mem::{offset_of, size_of};

#[test]
fn answers() {
    let fields = [
        offset_of!(AnswerNumbers, number),
        offset_of!(AnswerNumbers, bytes),
        offset_of!(AnswerNumbers, records),
        offset_of!(AnswerNumbers, version),
    ];
    assert_eq!((fields, size_of::<AnswerNumbers>()), ([0, 8, 16, 24], 32));
}

#[test]
fn salvages() {
    let fields = [
        offset_of!(SalvageNumbers, refused),
        offset_of!(SalvageNumbers, bytes),
        offset_of!(SalvageNumbers, records),
        offset_of!(SalvageNumbers, version),
        offset_of!(SalvageNumbers, number),
        offset_of!(SalvageNumbers, place),
        offset_of!(SalvageNumbers, left),
    ];
    assert_eq!((fields, size_of::<SalvageNumbers>()), ([0, 8, 16, 24, 32, 40, 48], 56));
}

#[test]
fn comparisons() {
    let fields = [
        offset_of!(ComparedNumbers, which),
        offset_of!(ComparedNumbers, file),
        offset_of!(ComparedNumbers, number),
        offset_of!(ComparedNumbers, place),
        offset_of!(ComparedNumbers, length),
    ];
    assert_eq!((fields, size_of::<ComparedNumbers>()), ([0, 8, 16, 24, 32], 40));
}

#[test]
fn reaches() {
    let fields = [
        offset_of!(ReachNumbers, number),
        offset_of!(ReachNumbers, place),
        offset_of!(ReachNumbers, legs),
        offset_of!(ReachNumbers, least),
        offset_of!(ReachNumbers, greatest),
    ];
    assert_eq!((fields, size_of::<ReachNumbers>()), ([0, 8, 16, 24, 36], 48));
}

#[test]
fn views() {
    let fields = [
        offset_of!(ViewNumbers, number),
        offset_of!(ViewNumbers, place),
        offset_of!(ViewNumbers, legs),
    ];
    assert_eq!((fields, size_of::<ViewNumbers>()), ([0, 8, 16], 24));
}

#[test]
fn summaries() {
    let fields = [
        offset_of!(SummaryNumbers, number),
        offset_of!(SummaryNumbers, place),
        offset_of!(SummaryNumbers, words),
    ];
    assert_eq!((fields, size_of::<SummaryNumbers>()), ([0, 8, 16], 24));
}

#[test]
fn entrances() {
    let fields = [
        offset_of!(EntranceNumbers, number),
        offset_of!(EntranceNumbers, place),
        offset_of!(EntranceNumbers, count),
        offset_of!(EntranceNumbers, found),
        offset_of!(EntranceNumbers, next),
    ];
    assert_eq!((fields, size_of::<EntranceNumbers>()), ([0, 8, 16, 24, 32], 40));
}

#[test]
fn openings() {
    let fields = [
        offset_of!(OpenNumbers, number),
        offset_of!(OpenNumbers, place),
        offset_of!(OpenNumbers, version),
    ];
    assert_eq!((fields, size_of::<OpenNumbers>()), ([0, 8, 16], 24));
}

#[test]
fn steps() {
    let fields = [
        offset_of!(StepNumbers, what),
        offset_of!(StepNumbers, bytes),
        offset_of!(StepNumbers, kept),
        offset_of!(StepNumbers, number),
    ];
    assert_eq!((fields, size_of::<StepNumbers>()), ([0, 8, 16, 24], 32));
}

/// A stand and a label are lent without their lengths.
#[test]
fn readers() {
    assert_eq!((size_of::<Stand>(), size_of::<Label>()), (8 * 14, 4096));
}
