//! `later`: which of two files is later.

use crate::args::Given;
use crate::desk::{Desk, Outcome, Status};
use crate::json::{quoted, Object};
use crate::text::shown;
use crate::{file, refusals, time};
use cockledrift::{compare, Later, Which};
use std::os::unix::ffi::OsStrExt;

pub fn run(given: &Given, desk: &mut Desk) -> Outcome {
    let [one, two] = [&given.names[0], &given.names[1]];
    let [first, second] = [file::load(one)?, file::load(two)?];
    let later = compare(&first, &second).map_err(|refused| match refused.file {
        Which::First => refusals::stop(one, &first, &refused.refusal),
        Which::Second => refusals::stop(two, &second, &refused.refusal),
    })?;
    let times = [
        time::second(&first).map_err(|refusal| refusals::stop(one, &first, &refusal))?,
        time::second(&second).map_err(|refusal| refusals::stop(two, &second, &refusal))?,
    ];
    let apart = times[0].abs_diff(times[1]);
    // The question is whether the first is later than the second.
    let (word, status) = match later {
        Later::First(_) => ("first", Status::Good),
        Later::Second(_) => ("second", Status::No),
        Later::Same => ("same", Status::No),
    };
    if desk.json {
        let object = Object::new().bytes("first", one.as_bytes()).bytes("second", two.as_bytes());
        let object = object.text("later", word).raw("seconds", format!("{times:?}"));
        let [a, b] = times.map(|second| quoted(&time::utc(second)));
        let object = object.raw("times", format!("[{a}, {b}]")).raw("difference", apart);
        return desk.line(&object.end()).map(|()| status);
    }
    desk.line(&match later {
        Later::First(_) => format!("{} is later, by {}", shown(one), time::span(apart)),
        Later::Second(_) => format!("{} is later, by {}", shown(two), time::span(apart)),
        Later::Same => "both have the same second".into(),
    })?;
    for (name, second) in [one, two].into_iter().zip(times) {
        desk.line(&format!("{}: {}", shown(name), time::utc(second)))?;
    }
    Ok(status)
}
