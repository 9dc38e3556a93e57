//! `view`: the page taken apart.

mod common;
mod see;
use cockledrift::{reach, sha256, Record};
use common::{bad_inputs, data, desk, fed, has, names, run_in, sh, small};
use see::json::{self, Json};
use see::{legs, made, sheet, unpacked, xml};
use std::fs;

fn page(file: &[u8]) -> String {
    let ran = fed(&["view", "-", "-o", "-"], file);
    assert_eq!((ran.code, &ran.err[..]), (0, ""));
    ran.out
}

/// What stands between two texts, the first time.
#[track_caller]
fn between<'p>(page: &'p str, start: &str, end: &str) -> &'p str {
    let (_, rest) = page.split_once(start).unwrap_or_else(|| panic!("no {start}"));
    rest.split_once(end).unwrap_or_else(|| panic!("no {end}")).0
}

fn known(page: &str) -> Json {
    json::parse(between(page, "<script type=\"application/json\" id=\"data\">", "</script>"))
}

/// Names, each with how much it has in common with the one before.
fn listed(text: &str) -> Vec<String> {
    let mut last: Vec<u16> = Vec::new();
    let mut names = Vec::new();
    for line in text.lines() {
        let (shared, rest) = line.split_once(' ').expect("a number and text");
        last.truncate(shared.parse().expect("a number"));
        last.extend(rest.encode_utf16());
        names.push(String::from_utf16(&last).expect("text"));
    }
    names
}

fn numbers<const N: usize>(json: &Json) -> Vec<[u8; N]> {
    let bytes = unpacked(json.text());
    assert_eq!(bytes.len() % N, 0);
    bytes.chunks(N).map(|part| part.try_into().expect("so many bytes")).collect()
}

#[test]
fn legs_are_exact() {
    for name in
        ["caves/dowprov.3d", "caves/rabbit.3d", "nested.v8.3d", "passage.v3.3d", "loops.v6.3d"]
    {
        let sheet = sheet(&data(name));
        let known = known(&page(&fs::read(data(name)).expect("a file")));
        let origin: Vec<i64> =
            known.get("origin").list().iter().map(|number| number.number() as i64).collect();
        let reach = reach(sheet.bytes(), b"").expect("legs");
        for axis in 0..3 {
            let [least, most] = [reach.least[axis], reach.greatest[axis]].map(i64::from);
            assert!((2 * origin[axis] - least - most).abs() <= 1, "the middle of the reach");
        }
        let due: Vec<i64> = legs(&sheet)
            .into_iter()
            .flat_map(|(_, from, to)| [from.x, from.y, from.z, to.x, to.y, to.z].map(i64::from))
            .collect();
        let found = numbers::<4>(known.get("legs")).into_iter().map(f32::from_le_bytes);
        let found: Vec<i64> = found
            .enumerate()
            .map(|(at, number)| {
                assert!(number.fract() == 0.0 && (number != 0.0 || number.is_sign_positive()));
                number as i64 + origin[at % 3]
            })
            .collect();
        assert!(found == due, "{name}");
    }
}

#[test]
fn stations_and_what_legs_have() {
    for name in ["caves/dowprov.3d", "nested.v8.3d", "anon.v8.3d"] {
        let sheet = sheet(&data(name));
        let known = known(&page(&fs::read(data(name)).expect("a file")));
        let stations: Vec<_> = sheet
            .records()
            .filter_map(|record| match record {
                Record::Station(station) if station.flags & 0x60 == 0 => Some(station),
                _ => None,
            })
            .collect();
        let found = listed(known.get("names").text());
        assert_eq!(found.len(), stations.len());
        let places = numbers::<12>(known.get("places"));
        let flags = unpacked(known.get("station_flags").text());
        for (at, station) in stations.iter().enumerate() {
            assert_eq!(found[at], cli::text::escaped(station.label));
            let place = [station.at.x, station.at.y, station.at.z].map(i32::to_le_bytes).concat();
            assert!(places[at][..] == place[..] && flags[at] == station.flags);
        }
        let surveys = listed(known.get("surveys").text());
        let runs =
            numbers::<4>(known.get("runs")).into_iter().map(i32::from_le_bytes).collect::<Vec<_>>();
        let each = runs.chunks(5).flat_map(|run| vec![run; run[0] as usize]);
        let mut each = each.collect::<Vec<_>>().into_iter();
        for record in sheet.records() {
            let Record::Leg(leg) = record else { continue };
            let run = each.next().expect("a run");
            assert_eq!((run[1], run[2]), (leg.flags.into(), leg.style.into()));
            assert_eq!(surveys[run[4] as usize], cli::text::escaped(leg.label));
        }
        assert!(each.next().is_none());
    }
}

/// Nothing is asked of a network, and the policy lets through the one script and the
/// one style that are there.
#[test]
fn the_policy_fits_the_page() {
    let page = page(&fs::read(data("caves/dowprov.3d")).expect("a file"));
    let policy = between(&page, "http-equiv=\"Content-Security-Policy\" content=\"", "\"");
    assert!(policy.starts_with("default-src 'none'; "));
    let hash =
        |text: &str| format!("'sha256-{}'", cli::page::base64::base64(&sha256(text.as_bytes())));
    let style = between(&page, "<style>", "</style>");
    let scripts: Vec<_> =
        page.split("<script>").skip(1).map(|rest| rest.split("</script>").next()).collect();
    let scripts: Vec<_> =
        scripts.into_iter().map(|script| hash(script.expect("its end"))).collect();
    assert_eq!(scripts.len(), 2);
    has(policy, &format!("script-src {};", scripts.join(" ")));
    has(policy, &format!("style-src {};", hash(style)));
    assert!(!policy.contains("unsafe"));
    let plain = page.replace("http://www.w3.org/2000/svg", "");
    for word in [
        "http:", "https:", " src=", "href=", "url(", "@import", "import(", "fetch(", " style=",
        "eval(",
    ] {
        assert!(!plain.contains(word), "{word}");
    }
    assert!(plain.find("Content-Security-Policy") < plain.find("<style"));
}

#[test]
fn the_plain_plan_inside() {
    let page = page(&fs::read(data("caves/dowprov.3d")).expect("a file"));
    let plan = format!("<svg{}</svg>", between(&page, "<svg", "</svg>"));
    let plan = xml::parse(&plan);
    assert_eq!((plan.get("width"), plan.get("height")), ("210mm", "297mm"));
    let paths =
        plan.id("legs").expect("legs").children.iter().filter(|path| path.get("id") != "stations");
    let lines: usize = paths
        .map(|path| {
            path.get("d")
                .split('M')
                .skip(1)
                .map(|run| run.split(' ').count() / 2 - 1)
                .sum::<usize>()
        })
        .sum();
    assert_eq!(lines, 759);
    let ids: Vec<_> =
        page.match_indices(" id=\"").map(|(at, mark)| &page[at + mark.len()..]).collect();
    let mut ids: Vec<_> =
        ids.into_iter().map(|rest| rest.split('"').next().expect("an id")).collect();
    let count = ids.len();
    ids.sort();
    ids.dedup();
    assert_eq!(ids.len(), count, "no id twice");
}

/// The title and the names are text wherever they stand.
#[test]
fn hostile_texts() {
    let title = b"</script><img src=x onerror=alert(1)><!--{{script}}";
    let names: [&[u8]; 3] =
        [b"</script><script>alert(2)</script>", b"<!--<script>", b"a\"\\\xe2\x80\xa8\xff"];
    let page = page(&made(title, &names));
    assert_eq!((page.matches("<script").count(), page.matches("</script").count()), (3, 3));
    assert_eq!(page.matches("<img").count() + page.matches("<!--").count(), 0);
    let known = known(&page);
    assert_eq!(known.get("title").text().as_bytes(), title);
    let due = names.map(cli::text::escaped);
    assert_eq!(listed(known.get("names").text()), due);
    has(&page, "<title>&lt;/script&gt;&lt;img src=x onerror=alert(1)&gt;&lt;!--{{script}}</title>");
}

#[test]
fn view() {
    let folder = desk("view");
    bad_inputs(&folder, &["view", "-o", "x.html"], &[]);
    let ran = fed(&["view", "-", "-o", "-"], &small("A", "@0"));
    let due = "standard input: refused 21 at 0: no leg of this survey (try: cockledrift list, which has the names of surveys)\n";
    assert_eq!((ran.code, &ran.out[..], &ran.err[..]), (1, "", due));
    let ran = run_in(&folder, &["view", "good.3d", "-o", "x.html"]);
    let page = fs::read_to_string(folder.join("x.html")).expect("a page");
    let due = format!("x.html: 11 legs in {} bytes\n", page.len());
    assert_eq!((ran.code, &ran.out[..], &ran.err[..]), (0, &due[..], ""));
    let ran = run_in(&folder, &["view", "good.3d", "-o", "x.html"]);
    assert_eq!(ran.code, 2);
    has(&ran.err, "x.html: it is there already (try: --force)");
    let ran = sh(&folder, "$P view --json good.3d -o y.html && cmp x.html y.html && $P view good.3d -o - | cmp - x.html");
    assert_eq!((ran.code, &ran.err[..]), (0, ""));
    has(&ran.out, "\"legs\": 11}");
    assert!(!names(&folder).iter().any(|name| name.contains(".part")));
}

/// A leg over 16,777,216 centimetres from the middle is refused: no number is rounded.
#[test]
fn a_leg_too_far() {
    let far = |half: i32| {
        let mut file = b"Survex 3D Image File\nv8\nA\n@0\n\0\x82\x01a".to_vec();
        file.extend([0; 12]);
        for (code, x) in [(0x0f, -half), (0x60, half)] {
            file.push(code);
            file.extend(x.to_le_bytes());
            file.extend([0; 8]);
        }
        file.extend([0, 0]);
        file
    };
    assert!(page(&far(16_777_216)).len() > 1000);
    let ran = fed(&["view", "-", "-o", "-"], &far(16_777_217));
    assert_eq!((ran.code, &ran.out[..]), (1, ""));
    has(&ran.err, "standard input: refused 20 at record 1: ");
}
