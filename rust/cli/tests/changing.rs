//! `diff` and `edit`.

mod common;
use cli::script::{way, Step};
use common::{bad_inputs, data, desk, fed, folder, has, run, run_in, sh, survex_files};
use std::fs;

/// Every way between short lists leads from the one to the other, and is as short
/// as the longest common part lets it be.
#[test]
fn ways() {
    let list = |number: usize, length: usize| -> Vec<usize> {
        (0..length).map(|at| number / 3_usize.pow(at as u32) % 3).collect()
    };
    let all: Vec<_> = (0..5)
        .flat_map(|length| (0..3_usize.pow(length as u32)).map(move |n| list(n, length)))
        .collect();
    for a in &all {
        all.iter().for_each(|b| leads(a, b));
    }
    // Longer ones, by chance.
    let mut chance = 1_u64;
    let mut next = |below: u64| {
        chance =
            chance.wrapping_mul(6_364_136_223_846_793_005).wrapping_add(1_442_695_040_888_963_407);
        (chance >> 33) % below
    };
    for letters in [2, 3, 10].repeat(100) {
        let [a, b] =
            [0; 2].map(|_| (0..next(40)).map(|_| next(letters) as usize).collect::<Vec<_>>());
        leads(&a, &b);
    }
    // Too far apart for the shortest way.
    let far = way(&(0..3000).collect::<Vec<_>>(), &(3000..6000).collect::<Vec<_>>());
    assert_eq!(far.len(), 6000);
    // By what both have once: every third is another, and some stand twice.
    let a: Vec<usize> = (0..9000).map(|at| if at % 50 == 0 { 1 } else { at + 10 }).collect();
    let b: Vec<usize> =
        a.iter().map(|&one| if one % 3 == 0 { one + 100_000 } else { one }).collect();
    leads(&a, &b);
    let back: Vec<usize> = (0..5000).rev().collect();
    let steps = way(&(0..5000).collect::<Vec<_>>(), &back);
    assert_eq!(steps.iter().filter(|step| matches!(step, Step::Both(..))).count(), 1);
}

/// The way leads from the one to the other, and no shorter one does.
fn leads(a: &[usize], b: &[usize]) {
    let steps = way(a, b);
    let (mut x, mut y) = (0, 0);
    for step in &steps {
        match *step {
            Step::Both(i, j) => assert_eq!((i, j, &a[i]), (x, y, &b[j])),
            Step::Out(i) => assert_eq!(i, x),
            Step::In(j) => assert_eq!(j, y),
        }
        x += usize::from(!matches!(step, Step::In(_)));
        y += usize::from(!matches!(step, Step::Out(_)));
    }
    assert_eq!((x, y), (a.len(), b.len()), "{a:?} {b:?}");
    let both = steps.iter().filter(|step| matches!(step, Step::Both(..))).count();
    assert_eq!(both, common_part(a, b), "{a:?} {b:?}");
}

/// The length of the longest common part, by its table.
fn common_part(a: &[usize], b: &[usize]) -> usize {
    let mut row = vec![0; b.len() + 1];
    for x in a {
        let old = row.clone();
        for (at, y) in b.iter().enumerate() {
            row[at + 1] = if x == y { old[at] + 1 } else { old[at + 1].max(row[at]) };
        }
    }
    row[b.len()]
}

#[test]
fn diff() {
    let folder = desk("diff");
    let ran = run_in(&folder, &["diff", "good.3d", "good.3d"]);
    assert_eq!((ran.code, &ran.out[..], &ran.err[..]), (0, "0 added, 0 removed, 0 changed\n", ""));
    sh(&folder, "$P convert --to 8 good.3d -o a.3d");
    assert_eq!(run_in(&folder, &["diff", "good.3d", "a.3d"]).code, 0);
    let new = "station 2 568 888 570 river.side.b\n\nstation 0 1 2 3 new\n";
    fs::write(folder.join("new.txt"), new).expect("a file");
    let ran = run_in(
        &folder,
        &["edit", "a.3d", "--at", "11", "--count=1", "--with", "new.txt", "-o", "b.3d"],
    );
    assert_eq!((ran.code, &ran.err[..]), (0, ""));
    let ran = run_in(&folder, &["edit", "b.3d", "--at", "0", "--count", "1", "-o", "c.3d"]);
    assert_eq!((ran.code, &ran.err[..]), (0, ""));
    let ran = run_in(&folder, &["diff", "a.3d", "c.3d"]);
    let due = "removed 0: leg river: (0.00 0.00 0.00) to (9.70 -1.71 -1.74) m, no date, normal\n\
        changed 11 to 10: station river.side.b: (5.68 8.88 5.69) m, underground -> station river.side.b: (5.68 8.88 5.70) m, underground\n\
        added 11: station new: (0.01 0.02 0.03) m\n1 added, 1 removed, 1 changed\n";
    assert_eq!((ran.code, &ran.out[..], &ran.err[..]), (1, due, ""));
    let ran = run_in(&folder, &["diff", "--json", "a.3d", "c.3d"]);
    has(&ran.out, "{\"schema\": 1, \"change\": \"added\", \"first\": null, \"second\": 11, \"old\": null, \"new\": \"station 0 1 2 3 new\"}\n");
    let loops = data("loops.v8.3d");
    let ran = run_in(&folder, &["diff", "good.3d", loops.to_str().expect("a name")]);
    assert_eq!(ran.code, 1);
    has(&ran.out, "title: Passage sizes and styles -> Loops\n");
    bad_inputs(&folder, &["diff"], &["good.3d"]);
    bad_inputs(&folder, &["diff", "good.3d"], &[]);
}

/// Long files that have nothing in common, and files that differ a little at many
/// places: told in moments.
#[test]
fn diff_of_long_files() {
    let folder = folder("longdiff");
    let file = |name: &str, label: &dyn Fn(usize) -> String| {
        let mut file = b"Survex 3D Image File\nv8\nA\n@0\n\0".to_vec();
        let mut old = 0;
        for number in 0..100_000 {
            let label = label(number);
            file.extend([0x80, 0, old as u8, label.len() as u8]);
            file.extend(label.bytes().chain([0; 12]));
            old = label.len();
        }
        file.extend([0, 0]);
        fs::write(folder.join(name), file).expect("a file");
    };
    file("a.3d", &|number| format!("a{number}"));
    file("b.3d", &|number| format!("b{number}"));
    file("c.3d", &|number| format!("{}{number}", if number % 90 == 0 { "c" } else { "a" }));
    let started = std::time::Instant::now();
    let ran = sh(&folder, "$P diff a.3d b.3d | tail -n 1; $P diff a.3d c.3d | tail -n 1");
    let due = "100000 added, 100000 removed, 0 changed\n1112 added, 1112 removed, 0 changed\n";
    assert_eq!((&ran.out[..], &ran.err[..]), (due, ""));
    assert!(started.elapsed().as_secs() < 60, "{:?}", started.elapsed());
}

/// List, parse, same sheet.
#[test]
fn records_go_round() {
    let folder = folder("round");
    let mut seen = 0;
    for file in survex_files() {
        let name = file.to_str().expect("a name");
        if run(&["check", "-q", name]).code != 0 {
            continue;
        }
        let line = format!(
            "$P convert -q --to 8 --force {name} -o a.3d && $P list --records a.3d >r && \
             $P edit a.3d --at 0 --count $(wc -l <r) --with r --force -o b.3d && cmp a.3d b.3d && \
             $P edit a.3d --at 0 --count $(wc -l <r) --with - --force -o - <r | cmp - a.3d"
        );
        let ran = sh(&folder, &line);
        assert_eq!((ran.code, &ran.err[..]), (0, ""), "{name}");
        seen += 1;
    }
    assert!(seen > 20, "{seen}");
}

#[test]
fn odd_records_go_round() {
    let folder = desk("odd");
    let records =
        "leg 7 5 1-65535 -2147483648 2147483647 0 1 2 3 %00%ff%25%20\nstation 127 0 0 0 %2d\n\
        station 0 0 0 0 -\nxsect 1 none -1 -2 0 2147483647 a.b\nerror -1 0 1 2 3\n";
    fs::write(folder.join("small.3d"), common::small("A", "@0")).expect("a file");
    let small = folder.join("small.3d");
    let ran = fed(
        &["edit", small.to_str().expect("a name"), "--at", "0", "--with", "-", "-o", "-"],
        records.as_bytes(),
    );
    assert_eq!((ran.code, &ran.err[..]), (0, ""));
    assert_eq!(fed(&["list", "--records", "-"], &ran.bytes).out, records);
}

#[test]
fn edits_that_are_refused() {
    let folder = desk("edits");
    sh(&folder, "$P convert --to 8 good.3d -o a.3d");
    fs::write(folder.join("bad.txt"), "station 2 0 0 0 x\nstation 128 0 0 0 y\n").expect("a file");
    let cases: [(&[&str], i32, &str); 9] = [
        (&["good.3d", "--at", "0"], 1, "good.3d: refused 14 at byte 0: not what the writer gives for this file's sheet (try: cockledrift convert --to 8)\n"),
        (&["a.3d", "--at", "34", "--count", "1"], 1, "a.3d: refused 15 at record 34: the run ends past the last record (try: cockledrift info, which counts them)\n"),
        (&["a.3d", "--at", "0", "--with", "bad.txt"], 1, "bad.txt: refused 12 at record 1: the sheet breaks the layout (try: lines as cockledrift list --records prints them)\n"),
        (&["a.3d"], 2, "cockledrift edit: --at N is missing (try: cockledrift edit --help)\n"),
        (&["a.3d", "--at", "x"], 2, "cockledrift edit: --at takes a number, not x (try: cockledrift edit --help)\n"),
        (&["a.3d", "--at", "0", "--with", "missing"], 2, "missing: No such file or directory\n"),
        (&["a.3d", "--at", "0", "--with", "other.3d"], 2, "other.3d: line 1 is no record (try: cockledrift list --records)\n"),
        (&["-", "--at", "0", "--with", "-"], 2, "cockledrift edit: standard input (-) can be read once (try: cockledrift edit --help)\n"),
        (&["a.3d", "--at", "99999999999999999999999"], 2, "cockledrift edit: --at takes a number, not 99999999999999999999999 (try: cockledrift edit --help)\n"),
    ];
    for (words, code, due) in cases {
        let ran = run_in(&folder, &[&["edit", "-o", "x.3d"], words].concat());
        assert_eq!((ran.code, &ran.out[..], &ran.err[..]), (code, "", due), "{words:?}");
    }
    assert!(!folder.join("x.3d").exists());
    bad_inputs(&folder, &["edit", "--at", "0", "-o", "x.3d"], &[]);
}

#[test]
fn lines_that_are_no_records() {
    let folder = folder("lines");
    fs::write(folder.join("a.3d"), common::small("A", "@0")).expect("a file");
    let file = folder.join("a.3d");
    let file = file.to_str().expect("a name");
    for line in [
        "leg 0 0 none 0 0 0 0 0 0",
        "station 0 0 0 x",
        "station 0 0 0 0 a b",
        "station 0 +1 0 0 a",
        "xsect 2 none 0 0 0 0 a",
        "station 0 0 0 0 %4",
        "station 0 0 0 0 %+4",
        "leg 0 0 +5 0 0 0 0 0 0 a",
        "error 1 2 3 4",
        "leg 0 0 5-x 0 0 0 0 0 0 a",
        "station 256 0 0 0 a",
        "",
    ] {
        let words = ["edit", file, "--at", "0", "--with", "-", "-o", "-"];
        let ran = fed(&words, line.as_bytes());
        assert_eq!(ran.code, if line.is_empty() { 0 } else { 2 }, "{line}");
    }
}
