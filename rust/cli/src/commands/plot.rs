//! `plot`: a plan or an elevation to scale.

use crate::args::Given;
use crate::desk::{Desk, Outcome, Status, Stop};
use crate::drawing::look::Look;
use crate::drawing::paper::{denominator, Paper, HEIGHTS, MARGIN, SIZES};
use crate::drawing::picture::Picture;
use crate::drawing::scene::{self, Scene};
use crate::json::Object;
use crate::text::{escaped, many, shown};
use crate::{file, output, refusals, time};
use cockledrift::Sheet;
use std::os::unix::ffi::OsStrExt;

pub fn run(given: &Given, desk: &mut Desk) -> Outcome {
    let (name, look, scale) = (&given.names[0], look(given)?, scale(given)?);
    let survey = given.value("--survey").unwrap_or_default().as_bytes();
    let bytes = file::load(name)?;
    let sheet = file::sheet(name, &bytes)?;
    let scene =
        Scene::of(&sheet, survey).map_err(|refusal| refusals::stop(name, &bytes, &refusal))?;
    let left = if look == Look::Plan { MARGIN } else { MARGIN + HEIGHTS };
    let paper = Paper::pick(look.bounds(&scene), scale, left, &SIZES);
    let words = below(&bytes, &sheet, &scene, look, &paper, survey);
    let (title, _) = scene::title(&sheet);
    let picture = Picture::new(&scene, look, paper, &title, &words).svg();
    output::save(given, desk, picture.as_bytes())?;
    warnings(given, desk, &sheet, look, scale, &paper);
    told(given, desk, &scene, &paper, picture.len())?;
    Ok(Status::Good)
}

/// `--plan`, or `--elevation` with whole degrees.
fn look(given: &Given) -> Result<Look, Stop> {
    let bearing = match given.text("--elevation")? {
        Some("") => Some(0),
        Some(word) => {
            let digits = Some(word).filter(|word| word.bytes().all(|byte| byte.is_ascii_digit()));
            let number = digits.and_then(|word| word.parse().ok()).filter(|number| *number < 360);
            let words = "--elevation takes whole degrees from 0 to 359";
            Some(number.ok_or_else(|| given.usage(words))?)
        }
        None => None,
    };
    match (given.has("--plan"), bearing) {
        (true, None) => Ok(Look::Plan),
        (false, Some(bearing)) => Ok(Look::Elevation(bearing)),
        _ => Err(given.usage("takes --plan or --elevation")),
    }
}

fn scale(given: &Given) -> Result<u64, Stop> {
    let word = given.text("--scale")?.unwrap_or("1:500");
    denominator(word).ok_or_else(|| given.usage("--scale takes 1:N, from 1:1 to 1:1000000"))
}

/// The lines below the title.
fn below(
    bytes: &[u8],
    sheet: &Sheet,
    scene: &Scene,
    look: Look,
    paper: &Paper,
    survey: &[u8],
) -> Vec<String> {
    let time = match time::second(bytes) {
        Ok(second) => time::utc(second),
        Err(_) => format!("no time: {}", escaped(sheet.header().time)),
    };
    let legs = many(scene.lines.len(), "leg");
    let legs = match survey {
        b"" => legs,
        _ => format!("survey {}, {legs}", escaped(survey)),
    };
    let extended = if sheet.header().extended { " (extended)" } else { "" };
    vec![
        format!("{}{extended}, 1:{}, {}", look.words(), paper.denominator, paper.words()),
        legs,
        time,
    ]
}

fn warnings(given: &Given, desk: &mut Desk, sheet: &Sheet, look: Look, scale: u64, paper: &Paper) {
    let to = match given.value("--output") {
        Some(name) if name != "-" => shown(name),
        _ => "standard output".into(),
    };
    if paper.denominator != scale && given.has("--scale") {
        let words = format!("too large for A0 at 1:{scale}: it is at 1:{}", paper.denominator);
        desk.warn(&format!("{to}: warning: {words}"));
    }
    if sheet.header().extended && look == Look::Plan {
        let words = "the file is an extended elevation (try: --elevation)";
        desk.warn(&format!("{to}: warning: {words}"));
    }
}

fn told(
    given: &Given,
    desk: &mut Desk,
    scene: &Scene,
    paper: &Paper,
    bytes: usize,
) -> Result<(), Stop> {
    let to = given.value("--output").unwrap_or_default();
    if to == "-" {
        return Ok(());
    }
    if desk.json {
        let object = Object::new().bytes("file", to.as_bytes()).raw("bytes", bytes);
        let object = object.raw("legs", scene.lines.len()).text("paper", &paper.words());
        return desk.line(&object.raw("scale", paper.denominator).end());
    }
    let legs = many(scene.lines.len(), "leg");
    desk.line(&format!("{}: {legs} at 1:{} on {}", shown(to), paper.denominator, paper.words()))
}
