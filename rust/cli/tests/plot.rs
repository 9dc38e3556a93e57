//! `plot`: pictures taken apart and held against the file.

mod common;
mod see;
use cockledrift::{reach, Point, Record, Sheet};
use common::{bad_inputs, data, desk, fed, folder, has, names, root, run_in, sh, survex_files};
use see::xml::{parse, Element};
use see::{legs, made, sheet};
use std::collections::HashMap;
use std::fs;
use std::path::PathBuf;

const STROKES: [(&str, fn(u8) -> bool); 4] = [
    ("leg", |flags| flags == 0),
    ("duplicate", |flags| flags == 2),
    ("surface", |flags| flags & 1 != 0),
    ("splay", |flags| flags & 5 == 4),
];

fn cave(name: &str) -> PathBuf {
    data("caves").join(name)
}

/// The picture of a file by these words, taken apart.
#[track_caller]
fn plotted(file: &[u8], words: &[&str]) -> Element {
    let ran = fed(&[&["plot", "-", "-o", "-"], words].concat(), file);
    assert_eq!((ran.code, &ran.err[..]), (0, ""), "{words:?}");
    parse(&ran.out)
}

/// The lines of a path: runs of places, each begun by M.
fn lines(path: &str) -> Vec<[[i64; 2]; 2]> {
    let mut lines = Vec::new();
    for run in path.split('M').skip(1) {
        let numbers: Vec<i64> =
            run.split(' ').map(|word| word.parse().expect("a number")).collect();
        let places: Vec<_> = numbers.chunks(2).map(|pair| [pair[0], pair[1]]).collect();
        lines.extend(places.windows(2).map(|pair| [pair[0], pair[1]]));
    }
    lines
}

fn stroke(picture: &Element, name: &str) -> Vec<[[i64; 2]; 2]> {
    let legs = picture.id("legs").expect("the legs");
    legs.id(name).map(|path| lines(path.get("d"))).unwrap_or_default()
}

/// The six numbers of the one transform.
fn matrix(picture: &Element) -> [f64; 6] {
    let all = picture.all();
    let moved: Vec<_> = all.iter().filter_map(|element| element.find("transform")).collect();
    assert_eq!(moved.len(), 1, "one transform");
    let numbers = moved[0].strip_prefix("matrix(").and_then(|rest| rest.strip_suffix(')'));
    let numbers = numbers.expect("a matrix").split(' ').map(|word| word.parse().expect("a number"));
    numbers.collect::<Vec<_>>().try_into().expect("six numbers")
}

fn on_paper([k, _, _, up, x, y]: [f64; 6], at: [i64; 2]) -> [f64; 2] {
    [x + k * at[0] as f64, y + up * at[1] as f64]
}

/// The texts of a group, with the room that each may take: left, top, right, bottom.
fn texts<'p>(picture: &'p Element, id: &str) -> Vec<(&'p str, [f64; 4])> {
    let Some(group) = picture.id(id) else { return Vec::new() };
    let size = group.number("font-size");
    let texts = group.children.iter().filter(|child| child.name == "text");
    let room = |text: &'p Element| {
        let (x, y) = (text.number("x"), text.number("y"));
        let wide = text.text.chars().count() as f64 * size * 0.62;
        (&text.text[..], [x, y - 0.95 * size, x + wide, y + 0.25 * size])
    };
    texts.map(room).collect()
}

/// The scale, the bar, and all that is drawn inside the page.
#[track_caller]
fn sound(picture: &Element) {
    let [k, zero, none, up, ..] = matrix(picture);
    assert!(zero == 0.0 && none == 0.0 && up == -k);
    let words = &picture.id("scale").expect("the scale").children[0].text;
    let (long, scale) = words.split_once(", 1:").expect("a length and a scale");
    let denominator: f64 = scale.parse().expect("a number");
    assert_eq!(k, 10.0 / denominator);
    let metres: f64 = long.strip_suffix(" m").and_then(|long| long.parse().ok()).expect("metres");
    let bar = picture.id("scale-bar").expect("the bar").number("width");
    assert!((bar - metres * 100.0 * k).abs() < 0.0002, "{bar} mm are {metres} m");
    assert!((20.0..=60.0).contains(&bar), "{bar}");
    let (wide, high) = (picture.number("width"), picture.number("height"));
    assert_eq!(picture.get("viewBox"), format!("0 0 {wide} {high}"));
    for (name, _) in STROKES {
        for at in stroke(picture, name).into_iter().flatten() {
            let [x, y] = on_paper(matrix(picture), at);
            let inside = (11.99..=wide - 11.99).contains(&x) && (11.99..=high - 37.99).contains(&y);
            assert!(inside, "{x} {y} on {wide} by {high}");
        }
    }
    for group in ["names", "entrance-names", "scale", "legend"] {
        for (text, [left, top, right, bottom]) in texts(picture, group) {
            let inside = left >= 0.0 && top >= 0.0 && right <= wide && bottom <= high;
            assert!(inside, "{text} {left} {top} {right} {bottom}");
        }
    }
}

/// Every leg of the file is there, in its stroke, in order, in centimetres less the
/// least corner.
#[track_caller]
fn same_legs(picture: &Element, sheet: &Sheet, flat: impl Fn(Point) -> [i64; 2]) {
    let mut seen = 0;
    for (name, takes) in STROKES {
        let due: Vec<_> = legs(sheet)
            .into_iter()
            .filter(|(flags, ..)| takes(*flags))
            .map(|(_, from, to)| [flat(from), flat(to)])
            .collect();
        seen += due.len();
        assert!(stroke(picture, name) == due, "{name}");
    }
    assert_eq!(seen, legs(sheet).len());
}

#[test]
fn a_plan_has_every_leg_to_scale() {
    for (name, count) in [("dowprov.3d", 759), ("rabbit.3d", 15)] {
        let file = fs::read(cave(name)).expect("a file");
        let sheet = sheet(&cave(name));
        let reach = reach(sheet.bytes(), b"").expect("legs");
        assert_eq!(reach.legs, count);
        let [x, y, _] = reach.least.map(i64::from);
        for words in
            [&["--plan"][..], &["--plan", "--scale", "1:5000"], &["--plan", "--scale=1:3456"]]
        {
            let picture = plotted(&file, words);
            sound(&picture);
            same_legs(&picture, &sheet, |at| [i64::from(at.x) - x, i64::from(at.y) - y]);
            assert!(picture.id("north").is_some() && picture.id("heights").is_none());
        }
    }
}

#[test]
fn an_elevation_has_every_leg_to_scale() {
    let file = fs::read(cave("dowprov.3d")).expect("a file");
    let sheet = sheet(&cave("dowprov.3d"));
    let [x, y, z] = reach(sheet.bytes(), b"").expect("legs").least.map(i64::from);
    let [right, back, _] = reach(sheet.bytes(), b"").expect("legs").greatest.map(i64::from);
    let ways: [(&str, &dyn Fn(Point) -> i64); 4] = [
        ("--elevation", &|at| i64::from(at.x) - x),
        ("--elevation=90", &|at| back - i64::from(at.y)),
        ("--elevation=180", &|at| right - i64::from(at.x)),
        ("--elevation=270", &|at| i64::from(at.y) - y),
    ];
    for (word, across) in ways {
        let picture = plotted(&file, &[word, "--scale", "1:2000"]);
        sound(&picture);
        same_legs(&picture, &sheet, |at| [across(at), i64::from(at.z) - z]);
        assert!(picture.id("north").is_none());
    }
}

/// From any side, one place of the file is one place of the paper.
#[test]
fn legs_that_meet_in_the_file_meet_on_paper() {
    let file = fs::read(cave("dowprov.3d")).expect("a file");
    let all = legs(&sheet(&cave("dowprov.3d")));
    for bearing in [1, 37, 123, 359] {
        let picture = plotted(&file, &[&format!("--elevation={bearing}")]);
        sound(&picture);
        let mut places: HashMap<Point, [i64; 2]> = HashMap::new();
        for (name, takes) in STROKES {
            let due = all.iter().filter(|(flags, ..)| takes(*flags));
            for ((_, from, to), line) in due.zip(stroke(&picture, name)) {
                for (point, at) in [(from, line[0]), (to, line[1])] {
                    assert_eq!(*places.entry(*point).or_insert(at), at);
                }
            }
        }
        let (sine, cosine) = f64::from(bearing).to_radians().sin_cos();
        let right = |at: &Point| f64::from(at.x) * cosine - f64::from(at.y) * sine;
        let (first, at) = places.iter().next().expect("a place");
        for (other, to) in &places {
            let off = (right(other) - right(first)) - (to[0] - at[0]) as f64;
            assert!(off.abs() <= 1.01 && i64::from(other.z) - i64::from(first.z) == to[1] - at[1]);
        }
    }
}

#[test]
fn height_marks_are_where_the_heights_are() {
    let file = fs::read(cave("dowprov.3d")).expect("a file");
    let least = i64::from(reach(sheet(&cave("dowprov.3d")).bytes(), b"").expect("legs").least[2]);
    for scale in ["1:1000", "1:2000", "1:10000"] {
        let picture = plotted(&file, &["--elevation", "--scale", scale]);
        let heights = picture.id("heights").expect("height marks");
        let path = heights.children.iter().find(|child| child.name == "path").expect("lines");
        let at: Vec<f64> = path
            .get("d")
            .split('M')
            .skip(1)
            .map(|line| {
                let y = line.split([' ', 'H']).nth(1).expect("a height");
                y.parse().expect("a number")
            })
            .collect();
        let words: Vec<_> = heights.children.iter().filter(|child| child.name == "text").collect();
        assert!(!words.is_empty() && at.len() == words.len());
        for (y, word) in at.into_iter().zip(words) {
            let metres: f64 =
                word.text.strip_suffix(" m").expect("metres").parse().expect("a number");
            let due = on_paper(matrix(&picture), [0, (metres * 100.0) as i64 - least])[1];
            assert!((y - due).abs() < 0.006, "{} at {y}, not {due}", word.text);
        }
    }
}

#[test]
fn names_stand_beside_their_stations_and_apart() {
    let cases =
        [("dowprov.3d", "1:2000", 250), ("dowprov.3d", "1:5000", 100), ("rabbit.3d", "1:200", 12)];
    for (name, words, least) in cases {
        let file = fs::read(cave(name)).expect("a file");
        let picture = plotted(&file, &["--plan", "--scale", words]);
        let named = texts(&picture, "names");
        assert!(named.len() >= least, "{name} {words}: {}", named.len());
        let entrances = texts(&picture, "entrance-names");
        let all: Vec<_> = named.iter().chain(&entrances).collect();
        for (number, (a, [left, top, right, bottom])) in all.iter().enumerate() {
            for (b, [other_left, other_top, other_right, other_bottom]) in &all[..number] {
                let apart = left >= other_right
                    || other_left >= right
                    || top >= other_bottom
                    || other_top >= bottom;
                assert!(apart, "{a} and {b} in {name} at {words}");
            }
        }
        let sheet = sheet(&cave(name));
        let due: Vec<_> = sheet
            .records()
            .filter_map(|record| match record {
                Record::Station(station) if station.flags & 4 != 0 => {
                    Some(String::from_utf8_lossy(station.label))
                }
                _ => None,
            })
            .collect();
        let found: Vec<_> = entrances.iter().map(|(text, _)| *text).collect();
        assert_eq!(found, due);
        assert_eq!(picture.id("entrances").expect("marks").children.len(), due.len());
        let dots = picture.id("stations").expect("dots").get("d").matches("h0").count();
        assert_eq!(dots, named.len());
    }
}

/// Title, time to the second, and what the picture is.
#[test]
fn the_lines_of_the_title() {
    let file = fs::read(cave("dowprov.3d")).expect("a file");
    let words = |picture: &Element| {
        picture
            .all()
            .iter()
            .map(|element| element.text.trim().to_string())
            .collect::<Vec<_>>()
            .join("\n")
    };
    let plan = words(&plotted(&file, &["--plan"]));
    for line in ["DowProv", "Plan, 1:2000, A1 portrait", "759 legs", "2021-09-19 13:06:45 UTC", "N"]
    {
        assert!(plan.lines().any(|own| own == line), "{line}: {plan}");
    }
    let side = words(&plotted(
        &file,
        &["--elevation=45", "--survey", "providencepot", "--scale", "1:750"],
    ));
    has(&side, "Elevation, looking 045°, 1:750, A2 landscape");
    has(&side, "survey providencepot, ");
    let (file, time) = (made(b"A", &[b"a", b"b"]), b"@1000000000");
    let at = file.windows(time.len()).position(|part| part == time).expect("a time");
    let untimed = [&file[..at], b"yesterday", &file[at + time.len()..]].concat();
    has(&words(&plotted(&untimed, &["--plan"])), "no time: yesterday");
}

#[test]
fn a_survey_of_a_file() {
    let file = fs::read(cave("dowprov.3d")).expect("a file");
    let sheet = sheet(&cave("dowprov.3d"));
    for survey in ["dowcave", "dowbergill2.dgp7", "providencepot"] {
        let due = reach(sheet.bytes(), survey.as_bytes()).expect("legs");
        let picture = plotted(&file, &["--plan", "--survey", survey]);
        sound(&picture);
        let count: usize = STROKES.iter().map(|(name, _)| stroke(&picture, name).len()).sum();
        assert_eq!(count, due.legs);
        let most = STROKES.iter().flat_map(|(name, _)| stroke(&picture, name)).flatten();
        let [right, top] = most.fold([0; 2], |[x, y], at| [x.max(at[0]), y.max(at[1])]);
        let across = |axis: usize| i64::from(due.greatest[axis]) - i64::from(due.least[axis]);
        assert_eq!([right, top], [across(0), across(1)]);
    }
    let ran = fed(&["plot", "--plan", "--survey", "dow", "-", "-o", "-"], &file);
    let due = "standard input: refused 21 at 0: no leg of this survey (try: cockledrift list, which has the names of surveys)\n";
    assert_eq!((ran.code, &ran.out[..], &ran.err[..]), (1, "", due));
}

#[test]
fn papers_and_scales() {
    let folder = folder("papers");
    fs::copy(cave("dowprov.3d"), folder.join("dow.3d")).expect("a copy");
    fs::copy(cave("rabbit.3d"), folder.join("rabbit.3d")).expect("a copy");
    let cases = [
        ("dow.3d --plan", "759 legs at 1:2000 on A1 portrait", ""),
        ("dow.3d --plan --scale 1:10000", "759 legs at 1:10000 on A4 portrait", ""),
        ("dow.3d --plan --scale 1:1500", "759 legs at 1:1500 on A0 portrait", ""),
        (
            "dow.3d --plan --scale 1:1000",
            "759 legs at 1:2000 on A1 portrait",
            "x.svg: warning: too large for A0 at 1:1000: it is at 1:2000\n",
        ),
        ("dow.3d --elevation", "759 legs at 1:1000 on A0 landscape", ""),
        ("rabbit.3d --plan", "15 legs at 1:500 on A4 landscape", ""),
        ("rabbit.3d --elevation --scale 1:100", "15 legs at 1:100 on A2 landscape", ""),
    ];
    for (words, due, warning) in cases {
        let ran = sh(&folder, &format!("$P plot {words} -o x.svg --force"));
        assert_eq!(
            (ran.code, ran.out, ran.err),
            (0, format!("x.svg: {due}\n"), warning.into()),
            "{words}"
        );
    }
    let ran = sh(&folder, "$P plot --json rabbit.3d --plan -o x.svg --force");
    has(&ran.out, "\"legs\": 15, \"paper\": \"A4 landscape\", \"scale\": 500}");
    let extended = fs::read(data("extended.v8.3d")).expect("a file");
    has(
        &fed(&["plot", "--plan", "-", "-o", "-"], &extended).err,
        "extended elevation (try: --elevation)",
    );
}

#[test]
fn usage() {
    let folder = desk("plot");
    let cases = [
        ("", "takes --plan or --elevation"),
        ("--plan --elevation", "takes --plan or --elevation"),
        ("--elevation=360", "--elevation takes whole degrees from 0 to 359"),
        ("--elevation=north", "--elevation takes whole degrees from 0 to 359"),
        ("--elevation=+9", "--elevation takes whole degrees from 0 to 359"),
        ("--plan=1", "--plan takes no value"),
        ("--plan --scale 500", "--scale takes 1:N"),
        ("--plan --scale 1:0", "--scale takes 1:N"),
    ];
    for (words, due) in cases {
        let ran = sh(&folder, &format!("$P plot {words} good.3d -o x.svg"));
        assert_eq!((ran.code, &ran.out[..]), (2, ""), "{words}");
        has(&ran.err, due);
    }
    let ran = run_in(&folder, &["plot", "--plan", "good.3d"]);
    has(&ran.err, "-o FILE is missing");
    bad_inputs(&folder, &["plot", "--plan", "-o", "x.svg"], &[]);
    bad_inputs(&folder, &["plot", "--elevation=7", "-o", "x.svg"], &[]);
    assert!(!folder.join("x.svg").exists());
    // The word behind --elevation is a file's name, and no bearing.
    let ran =
        sh(&folder, "$P plot -o x.svg --elevation good.3d && $P plot -o x.svg --plan good.3d");
    assert_eq!(ran.code, 2);
    has(&ran.err, "x.svg: it is there already (try: --force)");
    assert!(!names(&folder).iter().any(|name| name.contains(".part")));
}

/// Whatever stands in titles and names is text, and nothing else.
#[test]
fn hostile_texts() {
    let title = b"</title><script>x()</script>&amp;\"'\x01\xff\xef\xbf\xbf";
    let names: [&[u8]; 5] = [b"<b>&'\"", b"a.]]>", b"\x02\x7f", b"\xc3\xa9.\xe2\x80\xae", b"&lt;"];
    let picture = plotted(&made(title, &names), &["--plan", "--scale", "1:10"]);
    sound(&picture);
    let shown = "</title><script>x()</script>&amp;\"'\\x01\\xff\u{fffd}";
    assert_eq!(picture.children[0].text, shown);
    let found: Vec<_> =
        texts(&picture, "names").into_iter().map(|(text, _)| text.to_string()).collect();
    assert_eq!(found, ["<b>&'\"", "]]>", "\\x02\\x7f", "\\xe2\\x80\\xae", "&lt;"]);
}

/// Every file that has legs, from above and from the side, twice the same.
#[test]
fn every_file_draws() {
    let mut drawn = 0;
    for path in survex_files() {
        let file = fs::read(&path).expect("a file");
        let Ok(sheet) = Sheet::read(&file) else { continue };
        for words in
            [&["--plan", "--scale", "1:1000"][..], &["--elevation=30", "--scale", "1:1000"]]
        {
            let words = [&["plot", "-q", "-", "-o", "-"], words].concat();
            let ran = fed(&words, &file);
            assert_eq!(ran.code, i32::from(legs(&sheet).is_empty()), "{path:?} {}", ran.err);
            if ran.code == 0 {
                sound(&parse(&ran.out));
                assert!(fed(&words, &file).out == ran.out);
                drawn += 1;
            }
        }
    }
    assert!(drawn > 40, "{drawn}");
}

/// The pictures of README.md are what the commands under them give.
#[test]
fn pictures_of_the_readme() {
    let page = fs::read_to_string(root().join("README.md")).expect("the page is there");
    let folder = folder("pictures");
    let mut seen = 0;
    for line in page.lines().map(str::trim).filter(|line| line.starts_with("cockledrift plot ")) {
        let (words, name) = line.rsplit_once(" -o ").expect("where it goes");
        if !name.starts_with("docs/") {
            continue;
        }
        has(&page, &format!("]({name})"));
        let out = folder.join("x.svg");
        let ran = sh(
            &root(),
            &format!("cockledrift() {{ \"$P\" \"$@\"; }}; {words} -o {} --force", out.display()),
        );
        assert_eq!((ran.code, &ran.err[..]), (0, ""), "{line}");
        let (there, due) = (fs::read_to_string(root().join(name)), fs::read_to_string(&out));
        assert!(
            there.expect("a picture") == due.expect("a picture"),
            "{name} is not what this gives: {line}"
        );
        sound(&parse(&fs::read_to_string(&out).expect("a picture")));
        seen += 1;
    }
    assert!(seen >= 2, "{seen}");
}
