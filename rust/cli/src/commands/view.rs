//! `view`: a page on which a cave can be turned.

use crate::args::Given;
use crate::desk::{Desk, Outcome, Status};
use crate::json::Object;
use crate::page::page;
use crate::text::{many, shown};
use crate::{file, output, refusals};
use std::os::unix::ffi::OsStrExt;

pub fn run(given: &Given, desk: &mut Desk) -> Outcome {
    let name = &given.names[0];
    let bytes = file::load(name)?;
    let sheet = file::sheet(name, &bytes)?;
    let (page, legs) =
        page(&bytes, &sheet).map_err(|refusal| refusals::stop(name, &bytes, &refusal))?;
    output::save(given, desk, page.as_bytes())?;
    let to = given.value("--output").unwrap_or_default();
    if to == "-" {
        return Ok(Status::Good);
    }
    match desk.json {
        true => {
            let object = Object::new().bytes("file", to.as_bytes()).raw("bytes", page.len());
            desk.line(&object.raw("legs", legs).end())?;
        }
        false => {
            let (legs, bytes) = (many(legs, "leg"), many(page.len(), "byte"));
            desk.line(&format!("{}: {legs} in {bytes}", shown(to)))?;
        }
    }
    Ok(Status::Good)
}
