//! `info`, `list`, `check`, `later` and `entrances`.

mod common;
use common::{
    bad_inputs, data, data_bytes, desk, fed, folder, has, root, run, run_in, small, survex_files,
};
use std::fs;
use std::process::{Command, Stdio};

#[test]
fn info() {
    let folder = desk("info");
    let ran = run_in(&folder, &["info", "good.3d"]);
    let due = "file: good.3d\nversion: 8, 641 bytes\ntitle: Passage sizes and styles\n\
        time: 2026-11-15 17:03:45 UTC (the line: @1794762225)\nextended elevation: no\n\
        records: 34 (11 legs, 13 stations, 10 cross-sections, 0 traverse errors)\n\
        dates: 2001-01-01 to 2003-05-18\nhouse-written: no\n";
    assert_eq!((ran.code, &ran.out[..], &ran.err[..]), (0, due, ""));
    bad_inputs(&folder, &["info"], &[]);
    let ran = run_in(&folder, &["info", "cut.3d", "good.3d"]);
    assert_eq!((ran.code, &ran.out[..]), (1, due));
    let ran2 = run_in(&folder, &["info", "good.3d", "good.3d"]);
    assert_eq!(ran2.out, format!("{due}\n{due}"));
    let words = "refused 5 at byte 628: an item is unfinished, or the end is missing (try: cockledrift salvage)\n";
    has(&ran.err, words);
}

#[test]
fn info_of_other_headers() {
    let folder = folder("headers");
    fs::write(folder.join("a.3d"), small("Cave\0EPSG:32633", "Sun,2002.03.17 14:01:07 GMT"))
        .expect("a file");
    let ran = run_in(&folder, &["info", "a.3d"]);
    has(&ran.out, "title: Cave\ncoordinate system: EPSG:32633\n");
    has(&ran.out, "time: 2002-03-17 14:01:07 UTC (the line: Sun,2002.03.17 14:01:07 GMT)\n");
    has(&ran.out, "dates: none\nhouse-written: yes\n");
    fs::write(folder.join("b.3d"), small("Cave", "yesterday")).expect("a file");
    has(&run_in(&folder, &["info", "b.3d"]).out, "time: cannot be read (the line: yesterday)\n");
    let mut odd = small("T\"", "@0");
    odd[24] = 0xff;
    let ran = fed(&["info", "--json", "-"], &odd);
    let due = "{\"schema\": 1, \"file\": \"-\", \"version\": 8, \"bytes\": 33, \"title\": \"\u{fffd}\\\"\", \
        \"title_hex\": \"ff22\", \"second\": 0, \"time\": \"1970-01-01 00:00:00 UTC\", \"time_line\": \"@0\", \
        \"extended\": false, \"legs\": 0, \"stations\": 0, \"sections\": 0, \"errors\": 0, \
        \"first_date\": null, \"last_date\": null, \"house_written\": true}\n";
    assert_eq!((ran.code, &ran.out[..], &ran.err[..]), (0, due, ""));
    has(
        &run(&["info", data("extended.v8.3d").to_str().expect("a name")]).out,
        "extended elevation: yes\n",
    );
}

#[test]
fn list_raw_is_the_proved_listers() {
    let lister = root().join("target/bin/lister");
    if !lister.exists() {
        assert!(std::env::var_os("CI").is_none(), "{lister:?} is not there");
        return common::skipped("list --raw beside the proved lister, which is not built");
    }
    let folder = desk("raw");
    let mut files = survex_files();
    files.extend(["cut.3d", "empty.3d", "other.3d"].map(|name| folder.join(name)));
    assert!(files.len() > 40);
    for file in files {
        let input = Stdio::from(fs::File::open(&file).expect("a file"));
        let due = Command::new(&lister).stdin(input).output().expect("the lister runs").stdout;
        let ran = common::ran(
            common::program().args(["list", "--raw"]).arg(&file).output().expect("it runs"),
        );
        assert!(ran.bytes == due, "{file:?}");
        let refused = due.starts_with(b"refused");
        assert_eq!((ran.code, ran.err.is_empty()), (i32::from(refused), !refused), "{file:?}");
    }
}

#[test]
fn list() {
    let folder = desk("list");
    let ran = run_in(&folder, &["list", "good.3d"]);
    assert_eq!((ran.code, &ran.err[..], ran.out.lines().count()), (0, "", 34));
    has(
        &ran.out,
        "2 leg river: (19.06 -5.12 -2.61) to (28.86 -10.77 -6.61) m, 2003-05-17, diving\n",
    );
    has(&ran.out, "21 station river.in: (0.00 0.00 0.00) m, underground, entrance, fixed\n");
    has(&ran.out, "25 section river.side.b: left 400.00 right - up - down 0.10 m, 2001-01-01, last in its passage\n");
    bad_inputs(&folder, &["list"], &[]);
    bad_inputs(&folder, &["list", "--csv"], &[]);
    bad_inputs(&folder, &["list", "--records"], &[]);
    let ran = run_in(&folder, &["list", "cut.3d"]);
    assert_eq!((ran.code, &ran.out[..]), (1, ""));
    let ran = run_in(&folder, &["list", "--csv", "--raw", "good.3d"]);
    assert_eq!((ran.code, &ran.out[..]), (2, ""));
    let loops = run(&["list", data("loops.v8.3d").to_str().expect("a name")]);
    has(&loops.out, "1 error of 1 leg, 10.30 m: 4.74 m, horizontal 6.22, vertical 0.43\n");
}

#[test]
fn list_csv_and_json() {
    let folder = desk("csv");
    let ran = run_in(&folder, &["list", "--csv", "good.3d"]);
    assert_eq!((ran.code, &ran.err[..], ran.out.lines().count()), (0, "", 35));
    let commas = |line: &str| line.matches(',').count();
    assert!(ran.out.lines().all(|line| commas(line) == 22), "{}", ran.out);
    has(&ran.out, "\n2,leg,river,,diving,2003-05-17,2003-05-17,19.06,-5.12,-2.61,28.86,-10.77,-6.61,,,,,,,,,,\n");
    let ran = run_in(&folder, &["list", "--json", "good.3d"]);
    assert_eq!((ran.code, &ran.err[..], ran.out.lines().count()), (0, "", 34));
    let due =
        "{\"schema\": 1, \"record\": 2, \"kind\": \"leg\", \"label\": \"river\", \"flags\": [], \
        \"style\": \"diving\", \"first_date\": \"2003-05-17\", \"last_date\": \"2003-05-17\", \
        \"from\": [1906, -512, -261], \"to\": [2886, -1077, -661]}\n";
    has(&ran.out, due);
}

#[test]
fn check() {
    let folder = desk("check");
    fs::create_dir_all(folder.join("folder/deep")).expect("a folder");
    fs::copy(data("loops.v6.3d"), folder.join("folder/deep/LOOPS.3D")).expect("a copy");
    fs::write(folder.join("folder/notes.txt"), "no 3d file").expect("a file");
    std::os::unix::fs::symlink("..", folder.join("folder/round.3d")).expect("a link");
    let ran = run_in(&folder, &["check", "."]);
    let due = "./cut.3d: refused 5 at byte 628: an item is unfinished, or the end is missing (try: cockledrift salvage)\n\
        ./empty.3d: refused 1 at byte 0: no 3d file (try: another copy of it)\n./folder/deep/LOOPS.3D: good, v6\n./good.3d: good, v8\n\
        ./huge.3d: TOO_LONG\n./long.3d: TOO_LONG\n\
        ./other.3d: refused 1 at byte 0: no 3d file (try: another copy of it)\n7 files: 2 good, 5 refused\n";
    let due = due.replace("TOO_LONG", common::TOO_LONG);
    assert_eq!((ran.code, &ran.out[..], &ran.err[..]), (1, &due[..], ""));
    let ran = run_in(&folder, &["check", "good.3d", "missing.3d", "cut.3d"]);
    assert_eq!((ran.code, &ran.err[..]), (2, "missing.3d: No such file or directory\n"));
    has(&ran.out, "3 files: 1 good, 1 refused, 1 not read\n");
    let ran = run_in(&folder, &["check", "--json", "cut.3d"]);
    let due = "{\"schema\": 1, \"file\": \"cut.3d\", \"good\": false, \"refused\": 5, \"place\": 628, \
        \"place_counts\": \"byte\", \"reason\": \"an item is unfinished, or the end is missing\", \"try\": \"cockledrift salvage\"}\n";
    assert_eq!((ran.code, &ran.out[..], &ran.err[..]), (1, due, ""));
}

#[test]
fn check_strictly() {
    let folder = folder("strict");
    let station = |file: &mut Vec<u8>, label: &[u8], x: u8| {
        file.extend([0x80]);
        file.extend(label);
        file.extend([x, 0, 0, 0, 0, 0, 0, 0, 0, 0, 0, 0]);
    };
    let head = b"Survex 3D Image File\nv8\nA\n@0\n\0";
    let mut moved = head.to_vec();
    station(&mut moved, b"\x03a.1", 0);
    station(&mut moved, b"\x01\x32", 0);
    station(&mut moved, b"\x11\x31", 150); // a.12 to a.11
    station(&mut moved, b"\x10", 150); // a.1 again, at another place
    moved.extend([0, 0]);
    fs::write(folder.join("moved.3d"), &moved).expect("a file");
    let mut early = head.to_vec();
    early.extend(b"\x30\x03a.1\0\0\0\0\0\0\0\0");
    station(&mut early, b"\0\0\0", 7);
    early.extend([0, 0]);
    fs::write(folder.join("early.3d"), &early).expect("a file");
    fs::write(folder.join("good.3d"), data_bytes("passage.v8.3d")).expect("a file");
    let ran = run_in(&folder, &["check", "."]);
    assert_eq!((ran.code, ran.out.ends_with("3 files: 3 good, 0 refused\n")), (0, true));
    let ran = run_in(&folder, &["check", "--strict", "."]);
    let due = "./early.3d: refused 18 at byte 30: a cross-section of a name that no earlier station has (try: cockledrift check, which is not strict) \
        (record 0, section a.1: left 0.00 right 0.00 up 0.00 down 0.00 m, no date; \
        behind it record 1, station a.1: (0.07 0.00 0.00) m)\n\
        ./good.3d: good, v8\n\
        ./moved.3d: refused 19 at byte 77: a station whose name came earlier at another place (try: cockledrift check, which is not strict) \
        (record 3, station a.1: (1.50 0.00 0.00) m; before it record 0, station a.1: (0.00 0.00 0.00) m)\n\
        3 files: 1 good, 2 refused\n";
    assert_eq!((ran.code, &ran.out[..], &ran.err[..]), (1, due, ""));
    let ran = run_in(&folder, &["check", "--strict", "--json", "moved.3d"]);
    has(&ran.out, "\"refused\": 19, \"place\": 77, \"place_counts\": \"byte\"");
    has(&ran.out, "\"record\": 3, \"record_is\": \"station a.1: (1.50 0.00 0.00) m\"");
    has(&ran.out, "\"station\": 0, \"station_is\": \"station a.1: (0.00 0.00 0.00) m\", \"try\": ");
}

#[test]
fn later() {
    let folder = desk("later");
    fs::write(folder.join("a.3d"), small("A", "@1016373666")).expect("a file");
    fs::write(folder.join("b.3d"), small("B", "Sun,2002.03.17 14:01:07 GMT")).expect("a file");
    fs::write(folder.join("c.3d"), small("C", "Sun,2002.03.18 15:03:07 BST")).expect("a file");
    let times = "a.3d: 2002-03-17 14:01:06 UTC\nb.3d: 2002-03-17 14:01:07 UTC\n";
    let ran = run_in(&folder, &["later", "a.3d", "b.3d"]);
    assert_eq!(
        (ran.code, &ran.out[..], &ran.err[..]),
        (1, &format!("b.3d is later, by 1 second\n{times}")[..], "")
    );
    assert_eq!(run_in(&folder, &["later", "-q", "b.3d", "a.3d"]).code, 0);
    let ran = run_in(&folder, &["later", "b.3d", "b.3d"]);
    assert_eq!((ran.code, &ran.err[..]), (1, ""));
    has(&ran.out, "both have the same second\n");
    let ran = run_in(&folder, &["later", "a.3d", "c.3d"]);
    assert_eq!((ran.code, &ran.out[..]), (1, ""));
    assert_eq!(ran.err, "c.3d: refused 17 at byte 26: the time line is not readable (try: cockledrift info, which shows the line)\n");
    has(
        &run_in(&folder, &["later", "good.3d", "a.3d"]).out,
        "good.3d is later, by 9009 days, 3 hours, 2 minutes, 39 seconds\n",
    );
    bad_inputs(&folder, &["later"], &["good.3d"]);
    bad_inputs(&folder, &["later", "good.3d"], &[]);
    let ran = run_in(&folder, &["later", "--json", "a.3d", "b.3d"]);
    has(&ran.out, "\"later\": \"second\", \"seconds\": [1016373666, 1016373667]");
    let ran = fed(
        &["later", "-", folder.join("a.3d").to_str().expect("a name")],
        &data_bytes("loops.v6.3d"),
    );
    assert_eq!(ran.code, 0, "{}", ran.err);
}

#[test]
fn entrances() {
    let folder = desk("entrances");
    let ran = run_in(&folder, &["entrances", "good.3d"]);
    let station = "21 station river.in: (0.00 0.00 0.00) m, underground, entrance, fixed";
    let due = format!(
        "1 entrance from record 0 up to 34, of 34 records\n{station}\n\
         the next at or after 0: {station}\n"
    );
    assert_eq!((ran.code, &ran.out[..], &ran.err[..]), (0, &due[..], ""));
    // Of all records the same ones as the list says.
    let listed = run_in(&folder, &["list", "good.3d"]).out;
    let said: Vec<_> = listed.lines().filter(|line| line.contains(", entrance")).collect();
    assert_eq!(said, [station]);
    // The next one even past the stretch, and none.
    let ran = run_in(&folder, &["entrances", "good.3d", "--from", "3", "--to", "9"]);
    let due = format!(
        "0 entrances from record 3 up to 9, of 34 records\nthe next at or after 3: {station}\n"
    );
    assert_eq!((ran.code, &ran.out[..], &ran.err[..]), (0, &due[..], ""));
    let ran = run_in(&folder, &["entrances", "good.3d", "--from=22"]);
    has(&ran.out, "0 entrances from record 22 up to 34, of 34 records\n");
    has(&ran.out, "the next at or after 22: none\n");
    let ran = run_in(&folder, &["entrances", "--json", "good.3d", "--to", "5"]);
    let due = "{\"schema\": 1, \"file\": \"good.3d\", \"records\": 34, \"from\": 0, \"to\": 5, \
        \"count\": 0, \"next\": 21}\n\
        {\"schema\": 1, \"record\": 21, \"label\": \"river.in\", \"at\": [0, 0, 0]}\n";
    assert_eq!((ran.code, &ran.out[..], &ran.err[..]), (0, due, ""));
    for words in [["--from", "9", "--to", "3"], ["--from", "35", "--to", "35"]] {
        let ran = run_in(&folder, &[&["entrances", "good.3d"], &words[..]].concat());
        let due = "good.3d: refused 15 at record 34: the run ends past the last record (try: cockledrift info, which counts them)\n";
        assert_eq!((ran.code, &ran.out[..], &ran.err[..]), (1, "", due));
    }
    assert_eq!(run_in(&folder, &["entrances", "good.3d", "--from", "x"]).code, 2);
    bad_inputs(&folder, &["entrances"], &[]);
}
