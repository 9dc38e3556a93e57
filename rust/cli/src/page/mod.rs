//! A page on which a cave can be turned: one file, that asks nothing of a network.

pub mod base64;
pub mod data;

use crate::drawing::look::Look;
use crate::drawing::paper::{Paper, MARGIN, SIZES};
use crate::drawing::picture::Picture;
use crate::drawing::scene::{self, Scene};
use crate::drawing::svg::plain;
use crate::text::{escaped, many};
use crate::time;
use base64::base64;
use cockledrift::{sha256, viewer_legs, Refusal, Sheet};

const FRAME: &str = include_str!("page.html");
const STYLE: &str = include_str!("page.css");
const EARLY: &str = include_str!("early.js");
const SCRIPT: &str = include_str!("page.js");

/// The page of a file, and how many legs it shows. A file without legs is refused
/// with 21, and one whose legs are too far from the middle of its reach with 20.
pub fn page(file: &[u8], sheet: &Sheet) -> Result<(String, usize), Refusal> {
    let scene = Scene::of(sheet, b"")?;
    let reach = scene.reach;
    let middle = |axis: usize| i64::from(reach.least[axis]) + i64::from(reach.greatest[axis]);
    let origin = [0, 1, 2].map(|axis| (middle(axis).div_euclid(2)) as i32);
    let mut legs = vec![0.0; 6 * reach.legs];
    viewer_legs(sheet.bytes(), origin, &mut legs)?;
    let time = match time::second(file) {
        Ok(second) => time::utc(second),
        Err(_) => format!("no time: {}", escaped(sheet.header().time)),
    };
    let (title, system) = scene::title(sheet);
    let count =
        many(reach.legs, "leg") + &system.map(|system| format!(", {system}")).unwrap_or_default();
    let text = filled(|name| match name {
        "policy" => policy(),
        "title" => plain(&title),
        "time" => plain(&time),
        "count" => plain(&count),
        "style" => STYLE.into(),
        "early" => EARLY.into(),
        "plan" => plan(&scene, &title, &time),
        "data" => data::json(sheet, &reach, origin, &legs),
        _ => SCRIPT.into(),
    });
    Ok((text, reach.legs))
}

/// The frame with its gaps filled: what fills one is not looked through for others.
fn filled(fill: impl Fn(&str) -> String) -> String {
    let mut parts = FRAME.split("{{");
    let mut page = String::from(parts.next().unwrap_or_default());
    for part in parts {
        let (name, rest) = part.split_once("}}").expect("a gap has an end");
        page += &fill(name);
        page += rest;
    }
    page
}

/// Nothing is fetched, and there are no scripts and no style but these.
fn policy() -> String {
    let [early, script, style] =
        [EARLY, SCRIPT, STYLE].map(|text| base64(&sha256(text.as_bytes())));
    format!(
        "default-src 'none'; script-src 'sha256-{early}' 'sha256-{script}'; \
         style-src 'sha256-{style}'; base-uri 'none'; form-action 'none'"
    )
}

/// A plain plan on A4.
fn plan(scene: &Scene, title: &str, time: &str) -> String {
    let paper = Paper::pick(Look::Plan.bounds(scene), 100, MARGIN, &SIZES[..1]);
    let words =
        [format!("Plan, 1:{}", paper.denominator), many(scene.lines.len(), "leg"), time.into()];
    Picture::new(scene, Look::Plan, paper, title, &words).svg()
}
