//! Stepping through a file, one item at a time.

use crate::header::header;
use crate::item::{next, Item, What};
use crate::read::nothing_after;
use crate::record;
use crate::state::State;
use crate::{no, Refusal};

/// What opening answers: the version and the first item's place.
#[derive(Clone, Copy, PartialEq, Eq, Debug)]
pub enum Opened {
    At { version: u8, place: usize },
    Refused { number: u8, place: usize },
}

/// What a step answers. `Record` counts the bytes written, the two length
/// bytes included, and the bytes kept of the label: "the least length that the
/// current label had since the previous item that carried a label, or since the
/// start, counting the start of that stretch and the item's own drop", or 0 for
/// an error record.
#[derive(Clone, Copy, PartialEq, Eq, Debug)]
pub enum Step {
    Record { bytes: usize, kept: usize },
    Nothing,
    End,
    Refused { number: u8, place: usize },
}

impl From<Refusal> for Step {
    fn from(Refusal { number, place }: Refusal) -> Step {
        Step::Refused { number: number as u8, place }
    }
}

/// "A step reader keeps the file it was given together with its place."
pub struct Stepper<'a> {
    file: &'a [u8],
    place: usize,
    version: u8,
    state: State<'a>,
    /// The end or a refusal other than 11, said again by every later step.
    finish: Option<Step>,
}

/// Opens a file for stepping.
pub fn open(file: &[u8]) -> (Stepper<'_>, Opened) {
    Stepper::open(file)
}

impl<'a> Stepper<'a> {
    /// "Opening judges 16 and the header". A refused opening gives a stepper
    /// "whose every step answers that refusal".
    pub fn open(file: &'a [u8]) -> (Stepper<'a>, Opened) {
        let mut stepper = Stepper { file, place: 0, version: 0, state: State::new(), finish: None };
        let opened = match header(file) {
            Ok(head) => {
                stepper.place = head.items;
                stepper.version = head.version;
                Opened::At { version: head.version, place: head.items }
            }
            Err(refusal) => {
                stepper.finish = Some(refusal.into());
                Opened::Refused { number: refusal.number as u8, place: refusal.place }
            }
        };
        (stepper, opened)
    }

    /// Uses one item and writes its record, if it makes one, to the front of
    /// `out`. "On 11 it doesn't advance."
    pub fn step(&mut self, out: &mut [u8]) -> Step {
        if let Some(said) = self.finish {
            return said;
        }
        let said = self.item(out).unwrap_or_else(Step::from);
        match said {
            Step::Refused { number: 11, .. } => {}
            Step::End | Step::Refused { .. } => self.finish = Some(said),
            Step::Record { .. } | Step::Nothing => {}
        }
        said
    }

    /// One item. Nothing is changed before all refusals are past.
    fn item(&mut self, out: &mut [u8]) -> Result<Step, Refusal> {
        let refuse = |number| no(number, self.place);
        let (item, rest) = next(self.version, &self.file[self.place..]).map_err(refuse)?;
        if self.state.ends(&item) {
            nothing_after(self.file, rest)?;
            return Ok(Step::End);
        }
        let length = self.state.judge(&item).map_err(refuse)?;
        let size = record::size(&item, length);
        if let Some(size) = size.filter(|&size| size > out.len()) {
            return Err(no(11, size));
        }
        self.state.relabel::<true>(&item, length);
        record::put(&item, &self.state, out);
        self.state.apply(&item);
        self.place = self.file.len() - rest.len();
        Ok(size.map_or(Step::Nothing, |bytes| Step::Record { bytes, kept: kept(&item, length) }))
    }
}

/// The bytes kept, for an item that makes a record and leaves a label of
/// `length` bytes. Only an item that carries a label can lengthen it, so since
/// the previous one the label never grew: it was least right after the item's
/// own drop.
fn kept(item: &Item, length: usize) -> usize {
    match item.what {
        What::Error(_) => 0,
        _ => length - item.change.add.len(),
    }
}
