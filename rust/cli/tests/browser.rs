//! The page of `view` in a headless Chromium. Where there is none, each of these says
//! so aloud and is left out.

mod common;
mod see;
use cockledrift::{Point, Record};
use common::{data, folder, run};
use see::browser::{start, Browser, Tab};
use see::json::Json;
use see::{made, sheet};
use std::fs;
use std::path::{Path, PathBuf};

const WIDE: usize = 1280;
const HIGH: usize = 800;

/// The part of the page that no card covers.
const MIDDLE: [usize; 4] = [340, 140, 660, 520];

/// The page of a file, made in the folder.
fn made_page(folder: &Path, file: &Path) -> PathBuf {
    let page = folder.join("page.html");
    let words = [Path::new("view"), file, Path::new("-o"), &page].map(|word| word.as_os_str());
    assert_eq!(run(&words).code, 0);
    page
}

/// A browser with the page of a file.
fn opened(test: &str, file: &Path) -> Option<(Browser, Tab)> {
    let folder = folder(test);
    let page = made_page(&folder, file);
    let mut browser = start(&folder, test, &[])?;
    let tab = browser.tab(WIDE, HIGH);
    browser.open(&tab, &page);
    Some((browser, tab))
}

fn text(browser: &mut Browser, tab: &Tab, id: &str) -> String {
    browser.value(tab, &format!("document.getElementById('{id}').textContent"))
}

/// The names that are told of what was chosen.
fn chosen(browser: &mut Browser, tab: &Tab) -> String {
    browser.value(
        tab,
        "[...document.querySelectorAll('#info h2')].map((name) => name.textContent).join('|')",
    )
}

/// Searches a name and takes the first found.
fn search(browser: &mut Browser, tab: &Tab, name: &str) {
    browser.value(tab, "document.getElementById('find').value = ''");
    browser.key(tab, "/");
    browser.typed(tab, name);
    browser.key(tab, "Enter");
}

/// Pixels a centimetre, by the scale bar.
fn scale(browser: &mut Browser, tab: &Tab) -> f64 {
    let pixels =
        browser.number(tab, "document.querySelector('#bar i').getBoundingClientRect().width");
    let words = browser.value(tab, "document.querySelector('#bar span').textContent");
    let metres = match words.strip_suffix(" km") {
        Some(number) => number.parse::<f64>().expect("a number") * 1000.0,
        None => words.strip_suffix(" m").expect("metres").parse().expect("a number"),
    };
    pixels / (metres * 100.0)
}

/// Names and places of a file's stations.
fn stations(file: &Path) -> Vec<(String, Point)> {
    let sheet = sheet(file);
    let station = |record| match record {
        Record::Station(station) => {
            Some((String::from_utf8_lossy(station.label).into_owned(), station.at))
        }
        _ => None,
    };
    sheet.records().filter_map(station).collect()
}

/// Nothing was asked of a network, nothing went wrong, and nothing was blocked.
#[track_caller]
fn quiet(browser: &Browser, tab: &Tab, page: &str) {
    let asked: Vec<_> = browser
        .events(tab, "Network.requestWillBeSent")
        .into_iter()
        .map(|event| event.get("params").get("request").get("url").text())
        .collect();
    assert!(
        asked.len() == 1 && asked[0].starts_with("file://") && asked[0].ends_with(page),
        "{asked:?}"
    );
    for told in
        ["Runtime.exceptionThrown", "Page.javascriptDialogOpening", "Runtime.consoleAPICalled"]
    {
        assert!(browser.events(tab, told).is_empty(), "{:?}", browser.events(tab, told));
    }
    for entry in browser.events(tab, "Log.entryAdded") {
        let entry = entry.get("params").get("entry");
        assert!(entry.get("level").text() != "error", "{entry:?}");
    }
}

#[test]
fn in_chromium_it_loads_alone_draws_and_turns() {
    let Some((mut browser, tab)) = opened("draws", &data("caves/dowprov.3d")) else { return };
    let counter = browser.tab(100, 100);
    assert_eq!(browser.value(&tab, "document.documentElement.classList.contains('gl')"), "true");
    assert_eq!(
        browser.value(&tab, "getComputedStyle(document.getElementById('plain')).display"),
        "none"
    );
    let before = browser.picture(&tab, MIDDLE);
    let (drawn, same) = browser.pixels(&counter, &before, &before);
    assert!(drawn > 1000 && same == 0, "{drawn} pixels drawn");
    assert_eq!(text(&mut browser, &tab, "status"), "looking 020°, 35° down");
    browser.drag(&tab, "left", [600.0, 400.0], [700.0, 425.0]);
    assert_eq!(text(&mut browser, &tab, "status"), "looking 060°, 45° down");
    let after = browser.picture(&tab, MIDDLE);
    let (drawn, other) = browser.pixels(&counter, &before, &after);
    assert!(other > drawn / 2, "{other} pixels other, of {drawn}");
    // A right drag moves it and does not turn it; the wheel makes it larger.
    browser.drag(&tab, "right", [600.0, 400.0], [650.0, 420.0]);
    assert_eq!(text(&mut browser, &tab, "status"), "looking 060°, 45° down");
    let moved = browser.picture(&tab, MIDDLE);
    assert!(browser.pixels(&counter, &after, &moved).1 > 500);
    let small = scale(&mut browser, &tab);
    browser.mouse(&tab, "mouseWheel", [640.0, 400.0], "\"deltaX\": 0, \"deltaY\": -400");
    browser.settle(&tab);
    let large = scale(&mut browser, &tab);
    assert!((large / small - 0.6_f64.exp()).abs() < 0.02, "{small} {large}");
    quiet(&browser, &tab, "page.html");
}

#[test]
fn in_chromium_keys_turn_move_and_zoom() {
    let Some((mut browser, tab)) = opened("keys", &data("caves/rabbit.3d")) else { return };
    let ways = [
        ("p", "looking 000°, 90° down"),
        ("e", "looking 000°, 0° down"),
        ("ArrowRight", "looking 005°, 0° down"),
        ("ArrowDown", "looking 005°, 5° down"),
        ("ArrowUp", "looking 005°, 0° down"),
        ("ArrowUp", "looking 005°, 5° up"),
        ("ArrowLeft", "looking 000°, 5° up"),
        ("ArrowLeft", "looking 355°, 5° up"),
        ("n", "looking 000°, 5° up"),
    ];
    for (key, due) in ways {
        browser.key(&tab, key);
        assert_eq!(text(&mut browser, &tab, "status"), due, "{key}");
    }
    let before = scale(&mut browser, &tab);
    browser.key(&tab, "+");
    assert!((scale(&mut browser, &tab) / before - 1.25).abs() < 0.01);
    browser.key(&tab, "r");
    assert!((scale(&mut browser, &tab) / before - 1.0).abs() < 0.01);
    let theme = "document.documentElement.dataset.theme";
    let paper = "getComputedStyle(document.body).backgroundColor";
    let (was, light) = (browser.value(&tab, theme), browser.value(&tab, paper));
    browser.key(&tab, "t");
    assert!(browser.value(&tab, theme) != was && browser.value(&tab, paper) != light);
    quiet(&browser, &tab, "page.html");
}

/// Two fingers that part make it larger, and one finger turns it.
#[test]
fn in_chromium_fingers_turn_and_zoom() {
    let Some((mut browser, tab)) = opened("fingers", &data("caves/rabbit.3d")) else { return };
    browser.ask(
        Some(&tab),
        "Emulation.setTouchEmulationEnabled",
        "{\"enabled\": true, \"maxTouchPoints\": 2}",
    );
    let touch = |browser: &mut Browser, kind: &str, places: &[[f64; 2]]| {
        let points: Vec<_> = places
            .iter()
            .enumerate()
            .map(|(id, [x, y])| format!("{{\"x\": {x}, \"y\": {y}, \"id\": {id}}}"))
            .collect();
        let event = format!("{{\"type\": \"{kind}\", \"touchPoints\": [{}]}}", points.join(", "));
        browser.ask(Some(&tab), "Input.dispatchTouchEvent", &event);
    };
    touch(&mut browser, "touchStart", &[[600.0, 400.0]]);
    touch(&mut browser, "touchMove", &[[650.0, 400.0]]);
    touch(&mut browser, "touchMove", &[[700.0, 400.0]]);
    touch(&mut browser, "touchEnd", &[]);
    browser.settle(&tab);
    assert_eq!(text(&mut browser, &tab, "status"), "looking 060°, 35° down");
    let before = scale(&mut browser, &tab);
    touch(&mut browser, "touchStart", &[[600.0, 400.0], [700.0, 400.0]]);
    touch(&mut browser, "touchMove", &[[575.0, 400.0], [725.0, 400.0]]);
    touch(&mut browser, "touchMove", &[[550.0, 400.0], [750.0, 400.0]]);
    touch(&mut browser, "touchEnd", &[]);
    browser.settle(&tab);
    let after = scale(&mut browser, &tab);
    assert!((after / before - 2.0).abs() < 0.1, "{before} {after}");
    assert_eq!(text(&mut browser, &tab, "status"), "looking 060°, 35° down");
}

/// Each station is where the scale bar and its place in the file say, from above and
/// from the side, and a click there names it and tells its place.
#[test]
fn in_chromium_a_click_names_the_right_station() {
    let file = data("caves/rabbit.3d");
    let Some((mut browser, tab)) = opened("clicks", &file) else { return };
    let all = stations(&file);
    let (_, home) = all.iter().find(|(name, _)| name == "rabbit.9").expect("a station");
    for way in ["p", "e"] {
        browser.key(&tab, "n");
        browser.key(&tab, way);
        search(&mut browser, &tab, "rabbit.9");
        let scale = scale(&mut browser, &tab);
        let screen = |at: &Point| {
            let up = if way == "p" { at.y - home.y } else { at.z - home.z };
            [
                WIDE as f64 / 2.0 + f64::from(at.x - home.x) * scale,
                HIGH as f64 / 2.0 - f64::from(up) * scale,
            ]
        };
        let mut tried = 0;
        for (name, at) in &all {
            let [x, y] = screen(at);
            let apart = |other: &Point| (screen(other)[0] - x).hypot(screen(other)[1] - y) > 16.0;
            let alone = all.iter().all(|(other, at)| other == name || apart(at));
            let hit =
                browser.value(&tab, &format!("(document.elementFromPoint({x}, {y}) || {{}}).id"));
            if !alone || hit != "cave" {
                continue;
            }
            browser.click(&tab, [x + 3.0, y - 3.0]);
            assert_eq!(&chosen(&mut browser, &tab), name, "at {x} {y}");
            let told = browser.value(
                &tab,
                "[...document.querySelectorAll('#info dd')].map((part) => part.textContent).join()",
            );
            let due = [at.x, at.y, at.z].map(|number| format!("{} m", cli::text::metres(number)));
            assert_eq!(told, due.join(","));
            browser.key(&tab, "Escape");
            assert_eq!(chosen(&mut browser, &tab), "");
            tried += 1;
        }
        assert!(tried >= 8, "{tried} stations from {way}");
    }
    quiet(&browser, &tab, "page.html");
}

#[test]
fn in_chromium_search_finds_and_the_tape_measures() {
    let file = data("caves/dowprov.3d");
    let Some((mut browser, tab)) = opened("search", &file) else { return };
    browser.key(&tab, "/");
    browser.typed(&tab, "DGP7.1");
    let found = browser.value(
        &tab,
        "[...document.querySelectorAll('#found li')].map((item) => item.textContent).join()",
    );
    assert!(found.split(',').next() == Some("dowbergill2.dgp7.1"), "{found}");
    browser.key(&tab, "Enter");
    assert_eq!(chosen(&mut browser, &tab), "dowbergill2.dgp7.1");
    // It is then in the middle.
    browser.key(&tab, "Escape");
    browser.click(&tab, [WIDE as f64 / 2.0, HIGH as f64 / 2.0]);
    let told = text(&mut browser, &tab, "info");
    assert!(told.contains("dowbergill2.dgp7.1"), "{told}");
    search(&mut browser, &tab, "no such station");
    assert!(text(&mut browser, &tab, "info").contains("dowbergill2.dgp7.1"));
    browser.value(&tab, "document.getElementById('cave').focus()");
    search(&mut browser, &tab, "dowcave.entrance");
    browser.key(&tab, "m");
    search(&mut browser, &tab, "providencepot.entrance");
    assert_eq!(
        chosen(&mut browser, &tab),
        "dowcave.entrance|providencepot.entrance|From the one to the other"
    );
    let all = stations(&file);
    let at = |name: &str| all.iter().find(|(own, _)| own == name).expect("a station").1;
    let (from, to) = (at("dowcave.entrance"), at("providencepot.entrance"));
    let [x, y, z] = [to.x - from.x, to.y - from.y, to.z - from.z].map(f64::from);
    let rows = browser.value(&tab, "[...document.querySelector('#info').lastChild.querySelectorAll('dd')].map((part) => part.textContent).join()");
    let bearing = (x.atan2(y).to_degrees() + 360.0) % 360.0;
    let due = format!(
        "{:.2} m,{:.2} m,{:.2} m,{bearing:.1}°",
        x.hypot(y).hypot(z) / 100.0,
        x.hypot(y) / 100.0,
        z / 100.0
    );
    assert_eq!(rows, due);
    quiet(&browser, &tab, "page.html");
}

/// Each colouring gives another picture and its own legend.
#[test]
fn in_chromium_colours_and_legends() {
    let Some((mut browser, tab)) = opened("colours", &data("caves/dowprov.3d")) else { return };
    let counter = browser.tab(100, 100);
    let mut last = browser.picture(&tab, MIDDLE);
    let due = [
        ("survey", "dowcave ("),
        ("date", "1982-02-07"),
        ("style", "normal"),
        ("depth", "325.85 m459.00 m"),
    ];
    for (by, word) in due {
        let choose = format!("(() => {{ const by = document.getElementById('by'); by.value = '{by}'; by.dispatchEvent(new Event('change')); }})()");
        browser.value(&tab, &choose);
        let next = browser.picture(&tab, MIDDLE);
        let (_, other) = browser.pixels(&counter, &last, &next);
        assert!(other > 500, "{by}: {other} pixels");
        let legend = text(&mut browser, &tab, "colours");
        assert!(legend.contains(word), "{by}: {legend}");
        last = next;
    }
    // Without splays and surface legs less is drawn.
    let all = browser.pixels(&counter, &last, &last).0;
    browser.value(&tab, "document.querySelectorAll('#kinds input').forEach((box) => box.click())");
    let fewer = browser.picture(&tab, MIDDLE);
    assert!(browser.pixels(&counter, &fewer, &fewer).0 < all);
    quiet(&browser, &tab, "page.html");
}

/// A title and names that would be markup are shown as they are.
#[test]
fn in_chromium_a_hostile_title_is_text() {
    let folder = folder("hostile");
    let file = folder.join("hostile.3d");
    let title = "</script><img src=x onerror=alert(1)>";
    let names: [&[u8]; 2] =
        [b"</script><script>alert(2)</script>", b"<img src=x onerror=alert(3)>"];
    fs::write(&file, made(title.as_bytes(), &names)).expect("a file");
    let page = made_page(&folder, &file);
    let Some(mut browser) = start(&folder, "a_hostile_title_is_text", &[]) else { return };
    let tab = browser.tab(WIDE, HIGH);
    browser.open(&tab, &page);
    assert_eq!(browser.value(&tab, "document.title"), title);
    assert_eq!(browser.value(&tab, "document.querySelector('h1').textContent"), title);
    assert_eq!(
        browser.value(&tab, "document.images.length + ' ' + document.scripts.length"),
        "0 3"
    );
    search(&mut browser, &tab, "img");
    assert_eq!(chosen(&mut browser, &tab), "<img src=x onerror=alert(3)>");
    assert_eq!(
        browser.value(&tab, "document.images.length + ' ' + document.scripts.length"),
        "0 3"
    );
    // The policy stops what gets in all the same.
    let inside = "(() => { const own = document.createElement('script'); own.textContent = 'window.own = 1'; \
                  document.body.append(own); return typeof window.own; })()";
    quiet(&browser, &tab, "page.html");
    assert_eq!(browser.value(&tab, inside), "undefined");
}

/// Without WebGL the plain plan stands there.
#[test]
fn in_chromium_without_webgl_there_is_a_plan() {
    let folder = folder("plain");
    let page = made_page(&folder, &data("caves/rabbit.3d"));
    let Some(mut browser) = start(&folder, "without_webgl_there_is_a_plan", &["--disable-3d-apis"])
    else {
        return;
    };
    let (tab, counter) = (browser.tab(WIDE, 1300), browser.tab(100, 100));
    browser.open(&tab, &page);
    assert_eq!(browser.value(&tab, "document.documentElement.classList.contains('gl')"), "false");
    let height =
        browser.number(&tab, "document.querySelector('#plain svg').getBoundingClientRect().height");
    assert!(height > 400.0, "{height}");
    assert_eq!(
        browser.value(&tab, "getComputedStyle(document.getElementById('stage')).display"),
        "none"
    );
    let top = browser
        .number(&tab, "document.querySelector('#plain svg').getBoundingClientRect().top")
        as usize;
    let picture = browser.picture(&tab, [300, top + 20, 680, 700]);
    let (drawn, _) = browser.pixels(&counter, &picture, &picture);
    assert!(drawn > 500, "{drawn} pixels");
    quiet(&browser, &tab, "page.html");
}

/// What a page asks of WebGL, counted from before its own script runs: the last number
/// of each call by its name.
const WATCH: &str = "window.asked = {}; const all = WebGL2RenderingContext.prototype; \
    for (const name of Object.getOwnPropertyNames(all).filter((name) => /^(draw|multiDraw|createBuffer|bufferData)/.test(name))) { \
      const own = Object.getOwnPropertyDescriptor(all, name).value; if (typeof own !== 'function') continue; \
      all[name] = function (...words) { (asked[name] = asked[name] || []).push(words.pop.call([...words])); \
        return own.apply(this, words); }; }";

/// One buffer, filled once, and one draw call a frame, of so many: other calls that
/// draw are none.
#[track_caller]
fn one_call(browser: &mut Browser, page: &Path, call: &str, count: usize) {
    let (tab, counter) = (browser.tab(WIDE, HIGH), browser.tab(100, 100));
    let source = format!("{{\"source\": {}}}", see::json::quoted(WATCH));
    browser.ask(Some(&tab), "Page.addScriptToEvaluateOnNewDocument", &source);
    browser.open(&tab, page);
    browser.settle(&tab);
    let picture = browser.picture(&tab, MIDDLE);
    let (drawn, _) = browser.pixels(&counter, &picture, &picture);
    assert!(drawn > 1000, "{drawn} pixels");
    browser.value(&tab, &format!("asked.{call}.length = 0"));
    browser.key(&tab, "ArrowRight");
    assert_eq!(text(browser, &tab, "status"), "looking 025°, 35° down");
    let asked = see::json::parse(&browser.value(&tab, "JSON.stringify(asked)"));
    let Json::Object(pairs) = &asked else { panic!("{asked:?}") };
    let mut names: Vec<_> = pairs.iter().map(|(name, _)| &name[..]).collect();
    names.sort();
    assert_eq!(names, ["bufferData", "createBuffer", call]);
    assert_eq!(
        (asked.get("createBuffer").list().len(), asked.get("bufferData").list().len()),
        (1, 1)
    );
    assert_eq!(asked.get(call).list(), [Json::Number(count as f64)]);
}

/// 500,000 legs are one buffer, and a frame is one draw call.
#[test]
fn in_chromium_half_a_million_legs_are_one_draw_call() {
    const LEGS: usize = 500_000;
    let folder = folder("many");
    let mut file = b"Survex 3D Image File\nv8\nMany\n@0\n\0\x0f".to_vec();
    file.extend([0; 12]);
    for leg in 1..=LEGS {
        // A walk to and fro over 1000 by 500 metres, up and down by 100.
        let (x, y) = (leg % 1000, leg / 1000);
        file.push(0x60);
        for number in [100 * x, 100 * y, (7 * x + 13 * y) % 10_000] {
            file.extend((number as i32).to_le_bytes());
        }
    }
    file.extend([0, 0]);
    fs::write(folder.join("many.3d"), &file).expect("a file");
    let page = made_page(&folder, &folder.join("many.3d"));
    let Some(mut browser) = start(&folder, "half_a_million_legs_are_one_draw_call", &[]) else {
        return;
    };
    one_call(&mut browser, &page, "drawArrays", 2 * LEGS);
}

#[test]
fn in_chromium_a_cave_is_one_draw_call() {
    let folder = folder("cave");
    let page = made_page(&folder, &data("caves/dowprov.3d"));
    let Some(mut browser) = start(&folder, "a_cave_is_one_draw_call", &[]) else { return };
    one_call(&mut browser, &page, "drawArraysInstanced", 759);
}
