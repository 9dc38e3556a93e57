//! Every function through the header and through the crate: the same answers
//! and the same bytes, with all that is lent between guard pages on both sides,
//! and the program in C under the address and undefined-behaviour sanitizers.

use generate::{edits, files, sheets, valid, Rng, SheetKind};
use interface::calls::{Memory, Request};
use interface::tools::{compiled, folder, make, printed, root, run, SANITIZERS};
use interface::wanted;
use std::collections::{BTreeMap, BTreeSet};
use std::fs;
use std::io::{BufRead, BufReader, BufWriter, Write};
use std::os::unix::process::ExitStatusExt;
use std::path::PathBuf;
use std::process::{Command, Output, Stdio};
use std::sync::{mpsc, OnceLock};
use std::{env, ptr, thread};

/// The longest that anything lent may be.
const ROOM: usize = 40 << 20;
const FILE_LIMIT: usize = 16_777_216;

/// The program in C.
fn program() -> &'static PathBuf {
    static PROGRAM: OnceLock<PathBuf> = OnceLock::new();
    PROGRAM.get_or_init(|| {
        let folder = folder(env!("CARGO_TARGET_TMPDIR"), "calls");
        printed(&mut make(&folder));
        let program = folder.join("calls");
        let source = root().join("rust/interface/c/calls.c");
        compiled("gcc", &[&["-std=c11"], &SANITIZERS[..]].concat(), &source, &folder, &program);
        program
    })
}

/// How often each call has given each number.
type Seen = BTreeMap<(char, String), usize>;

/// Has both make the calls; their lines have to be the same.
fn all_alike(requests: impl Iterator<Item = Request> + Send) -> Seen {
    let mut child = Command::new(program())
        .stdin(Stdio::piped())
        .stdout(Stdio::piped())
        .spawn()
        .expect("the program in C runs");
    let mut to = BufWriter::new(child.stdin.take().expect("its standard input"));
    let lines = BufReader::new(child.stdout.take().expect("its standard output")).lines();
    let (tell, due) = mpsc::sync_channel(1000);
    let seen = thread::scope(|scope| {
        scope.spawn(move || {
            let mut memory = Memory::new(ROOM);
            for request in requests {
                let told = (memory.answer(&request), request.clone());
                if to.write_all(&request.bytes()).is_err() || tell.send(told).is_err() {
                    break;
                }
            }
        });
        alike(lines, due)
    });
    let status = child.wait().expect("the program in C ends");
    assert!(status.success(), "the program in C: {status}");
    seen
}

type Lines = std::io::Lines<BufReader<std::process::ChildStdout>>;

fn alike(mut lines: Lines, due: mpsc::Receiver<(String, Request)>) -> Seen {
    let mut seen = Seen::new();
    for (due, request) in due {
        let line = lines.next().map(|line| line.expect("a line"));
        let hex = || request.a.iter().map(|byte| format!("{byte:02x}")).collect::<String>();
        assert_eq!(line.as_deref(), Some(&due[..]), "C and Rust; input {}", hex());
        let number = match request.letter {
            b'l' if due.starts_with("l 3") => due.split(' ').nth(3),
            b's' | b'n' if due.split(' ').nth(5) == Some("4") => due.split(' ').nth(7),
            b'd' => Some("0"),
            b's' | b'n' => Some("0"),
            _ => due.split(' ').nth(1),
        };
        let number = number.expect("a number").to_string();
        *seen.entry((request.letter as char, number)).or_default() += 1;
    }
    seen
}

/// Each of these answers has to have been seen, so that a stale generator shows.
fn must_have_seen(seen: &Seen, letter: char, numbers: &[u8]) {
    for number in numbers {
        assert!(seen.contains_key(&(letter, number.to_string())), "no {number} of {letter}");
    }
}

/// The length of the sheet of a file, or of what a call would write.
fn needed(answer: cockledrift::Answer) -> Option<usize> {
    answer.err().and_then(|refusal| refusal.needed()).filter(|&bytes| bytes < ROOM - 100)
}

/// Calls on a file: with room just enough, one byte short, and none.
fn of_file(file: &[u8], before: &[u8]) -> Vec<Request> {
    let bytes = needed(cockledrift::read(file, &mut []));
    let room = bytes.unwrap_or(100);
    let mut requests = vec![
        Request::new(b'r', file, 0),
        Request::new(b'r', file, room),
        Request::new(b'v', file, 0),
        Request::new(b'v', file, room + 5000),
        Request { second_room: 31, ..Request::new(b'i', file, room) },
        Request {
            second_room: cockledrift::names_room(file).min(ROOM - 100),
            first: file.len(),
            ..Request::new(b'i', file, room)
        },
        Request::new(b'p', file, room),
        Request::new(b's', file, cockledrift::RECORD_LIMIT),
        Request::new(b'n', file, 40),
        Request { b: before.to_vec(), ..Request::new(b'l', file, 0) },
        Request { second_room: 2 * file.len() + 99, ..Request::new(b'c', file, room + 33) },
    ];
    let digest = Request::new(b'd', file, 32);
    requests.push(Request { first: file.len() / 2, second_room: 64, ..digest });
    if bytes.is_some() {
        requests.push(Request::new(b'r', file, room - 1));
        requests.push(Request { second_room: 9, ..Request::new(b'c', file, room) });
    }
    requests
}

/// Numbers that a stand of a reader has seldom or never.
const ANY: [u64; 12] =
    [0, 1, 2, 5, 8, 255, 4096, 4097, 65536, u32::MAX as u64, u64::MAX - 4096, u64::MAX];

/// Two steps of a reader that stands in the file, but for a few numbers.
fn from_anywhere(rng: &mut Rng, file: &[u8]) -> Request {
    let (mut reader, _) = cockledrift::Reader::open(file);
    for _ in 0..rng.below(6) {
        let _ = reader.step(&mut [0; cockledrift::RECORD_LIMIT]);
    }
    let mut stand = *reader.stand().0;
    for _ in 0..rng.below(4) {
        let place = rng.below(stand.len());
        stand[place] = if rng.one_in(4) { rng.next() } else { rng.pick(&ANY) };
    }
    let stand = stand.iter().flat_map(|number| number.to_le_bytes()).collect();
    Request { b: stand, ..Request::new(b'a', file, rng.pick(&[0, 30, cockledrift::RECORD_LIMIT])) }
}

/// Calls on a sheet.
fn of_sheet(sheet: &[u8]) -> Vec<Request> {
    let v8 = needed(cockledrift::write(sheet, &mut []));
    let v7 = needed(cockledrift::write_v7(sheet, &mut []));
    let mut requests = vec![
        Request::new(b'w', sheet, v8.unwrap_or(100)),
        Request::new(b'7', sheet, v7.unwrap_or(100)),
    ];
    requests.extend(
        [&b""[..], b"a", b"abc"]
            .map(|name| Request { b: name.to_vec(), ..Request::new(b'x', sheet, 0) }),
    );
    requests.extend([[0; 3], [-5, i32::MAX, i32::MIN]].iter().flat_map(|at| viewed(sheet, *at)));
    requests.extend(v8.map(|bytes| Request::new(b'w', sheet, bytes - 1)));
    requests.extend(v7.map(|bytes| Request::new(b'7', sheet, bytes - 1)));
    requests.extend(of_summary(sheet));
    requests
}

/// Legs for the viewer: with room just enough, one number short, and more.
fn viewed(sheet: &[u8], origin: [i32; 3]) -> Vec<Request> {
    let needed = cockledrift::viewer_legs(sheet, origin, &mut []).err().and_then(|no| no.needed());
    let rooms = needed.map_or(vec![7], |numbers| vec![numbers, numbers - 1, numbers + 3]);
    let b: Vec<u8> = origin.iter().flat_map(|number| number.to_le_bytes()).collect();
    let request = |room| Request { b: b.clone(), ..Request::new(b'g', sheet, 4 * room) };
    rooms.into_iter().map(request).collect()
}

/// Summaries of a sheet, and questions to one and to any words.
fn of_summary(sheet: &[u8]) -> Vec<Request> {
    let words = cockledrift::summarize(sheet, &mut []).err().and_then(|refusal| refusal.needed());
    let bytes = 8 * words.unwrap_or(2);
    let rooms = [Some(bytes), Some(bytes + 16), bytes.checked_sub(8)];
    let mut requests: Vec<_> =
        rooms.into_iter().flatten().map(|room| Request::new(b'y', sheet, room)).collect();
    let Ok(sheet) = cockledrift::Sheet::of(sheet.to_vec()) else { return requests };
    let summary = cockledrift::Summary::of(&sheet).expect("a good sheet");
    let records = summary.records();
    let held: Vec<u8> = summary.words().iter().flat_map(|word| word.to_le_bytes()).collect();
    let any: Vec<u8> = held.iter().map(|byte| byte ^ 0xa5).collect();
    let ranges =
        [(0, records), (records / 2, records), (records, records), (1, 0), (0, records + 1)];
    for (first, count) in ranges {
        let records = records as u32;
        let question =
            |words: &[u8]| Request { first, count, records, ..Request::new(b'q', words, 0) };
        requests.extend([question(&held), question(&any)]);
        requests.extend(bytes.checked_sub(8).map(|less| question(&held[..less.min(held.len())])));
    }
    requests
}

/// A summary brought up to date by an edit: with room enough, a word short, and
/// of words that are no summary.
fn of_update(sheet: &cockledrift::Sheet, edit: &edits::Edit) -> Vec<Request> {
    let summary = cockledrift::Summary::of(sheet).expect("a good sheet");
    let held: Vec<u8> = summary.words().iter().flat_map(|word| word.to_le_bytes()).collect();
    let any: Vec<u8> = held.iter().map(|byte| byte ^ 0x5a).collect();
    let edits::Edit { first, count, new } = edit.clone();
    let records = summary.records() as u32;
    let update = |words: &[u8], room| {
        let request = Request { b: new.clone(), records, ..Request::new(b'u', words, room) };
        Request { first, count, ..request }
    };
    let room = held.len() + 64;
    let short = held.len().saturating_sub(8);
    vec![update(&held, room), update(&any, room), update(&held, short)]
}

fn of_edit(file: &[u8], edit: edits::Edit) -> Vec<Request> {
    let edits::Edit { first, count, new } = edit;
    let bytes = needed(cockledrift::edit(file, first, count, &new, &mut []));
    let request = Request { b: new, first, count, ..Request::new(b'e', file, 0) };
    let rooms = bytes.map_or(vec![100], |bytes| vec![bytes, bytes - 1]);
    rooms.into_iter().map(|room| Request { room, ..request.clone() }).collect()
}

/// The calls of one round: files, sheets, and edits of one good sheet's file.
fn of_round(round: u64) -> (usize, Vec<Request>) {
    let seed = wanted::seed();
    let mut requests = Vec::new();
    let files: Vec<_> = files::round(seed, round).into_iter().map(|(_, file)| file).collect();
    let mut rng = Rng::new(seed, round);
    for (place, file) in files.iter().enumerate() {
        requests.extend(of_file(file, &files[place.saturating_sub(1)]));
        requests.push(from_anywhere(&mut rng, file));
    }
    let sheets = sheets::round(seed, round);
    requests.extend(sheets.iter().step_by(3).flat_map(|(_, sheet)| of_sheet(sheet)));
    let good = sheets.iter().find(|(kind, _)| *kind == SheetKind::Good).expect("a good sheet");
    if let Ok(file) = cockledrift::write_vec(&good.1) {
        let sheet = cockledrift::Sheet::read(&file).expect("what was written");
        let records = sheet.records().count();
        for (_, edit) in edits::round(&mut rng, records).into_iter().step_by(3) {
            requests.extend(of_update(&sheet, &edit));
            requests.extend(of_edit(&file, edit));
        }
    }
    requests.push(Request { first: 1, ..Request::new(b'e', &files[0], 50) });
    (files.len(), requests)
}

/// Damaged files, sheets and edits: some of the fixed files, and then rounds,
/// until there are 100,000 files or as many as COCKLEDRIFT_CALLS says.
#[test]
fn damaged_files_are_answered_alike() {
    let mut files = 0;
    let rounds = (0..).map(of_round).take_while(|(count, _)| {
        let more = files < wanted::files();
        files += count;
        more
    });
    let fixed = files::fixed().step_by(11).flat_map(|(_, file)| of_file(&file, &file));
    let seen = all_alike(fixed.chain(rounds.flat_map(|(_, requests)| requests)));
    println!("{} calls, by letter and number: {seen:?}", seen.values().sum::<usize>());
    must_have_seen(&seen, 'r', &[0, 1, 2, 3, 4, 5, 6, 7, 8, 9, 10, 11]);
    must_have_seen(&seen, 'v', &[0, 1, 2, 3, 11]);
    must_have_seen(&seen, 'i', &[0, 1, 2, 3, 4, 5, 6, 7, 8, 9, 10, 18, 22]);
    must_have_seen(&seen, 's', &[0, 1, 2, 3, 4, 5, 6, 7, 8, 9, 10]);
    must_have_seen(&seen, 'n', &[0, 5, 10, 11]);
    must_have_seen(&seen, 'c', &[0, 5, 11]);
    must_have_seen(&seen, 'x', &[0, 12, 21]);
    must_have_seen(&seen, 'g', &[0, 11, 12, 20]);
    must_have_seen(&seen, 'y', &[0, 11, 12]);
    must_have_seen(&seen, 'q', &[0, 11, 15]);
    must_have_seen(&seen, 'u', &[0, 11, 12, 15]);
    must_have_seen(&seen, 'w', &[0, 11, 12, 13]);
    must_have_seen(&seen, '7', &[0, 11, 12, 23]);
    must_have_seen(&seen, 'e', &[0, 11, 12, 14, 15]);
    must_have_seen(&seen, 'l', &[0, 1, 2, 3, 4, 17]);
    must_have_seen(&seen, 'p', &[0, 5]);
    must_have_seen(&seen, 'a', &[1, 2, 3, 4]);
}

/// Every function with good, bad, empty and over-long input.
#[test]
fn every_function_answers_alike() {
    let good = valid::tour(8).bytes;
    let written = cockledrift::Sheet::read(&good).and_then(|sheet| sheet.write()).expect("a file");
    let mut long = good.clone();
    long.resize(FILE_LIMIT + 1, 0);
    let station = generate::record::sheet(&sheets::records_of(&mut Rng::new(1, 1)))[1..].to_vec();
    let mut requests = Vec::new();
    for file in [&good, &written, &vec![], &good[..70].to_vec(), &long, &long[1..].to_vec()] {
        requests.extend(of_file(file, &good));
        requests.push(Request { b: file.clone(), ..Request::new(b'l', &good, 0) });
        requests.extend([1, usize::MAX].map(|count| Request {
            b: station.clone(),
            count,
            ..Request::new(b'e', file, written.len() + 5000)
        }));
    }
    // A file of the greatest length, and a sheet whose file would be longer.
    let mut most = good.clone();
    most.resize(FILE_LIMIT, 0);
    requests.push(Request::new(b'r', &most, 10));
    let big = [&sheets::tour()[..10], &b"\0\x15\x04".repeat(1_000_000)].concat();
    for sheet in [&sheets::tour(), &sheets::old_tour(), &vec![], &vec![3], &big, &errors(800_000)] {
        requests.extend(of_sheet(sheet));
    }
    let seen = all_alike(requests.into_iter());
    must_have_seen(&seen, 'r', &[0, 1, 5, 10, 11, 16]);
    must_have_seen(&seen, 'w', &[0, 12, 16]);
    must_have_seen(&seen, '7', &[12, 16, 23]);
    must_have_seen(&seen, 'c', &[0, 1, 16]);
    must_have_seen(&seen, 'e', &[0, 1, 15, 16]);
    must_have_seen(&seen, 'l', &[0, 1, 16]);
    must_have_seen(&seen, 's', &[0, 1, 5, 16]);
    must_have_seen(&seen, 'n', &[1, 16]);
    must_have_seen(&seen, 'p', &[0, 16]);
}

/// A sheet of so many traverse errors.
fn errors(count: usize) -> Vec<u8> {
    let error = [&[0, 21, 4][..], &[0; 20]].concat();
    [&b"\x02\0\x07\0\0\0\x01A@0"[..], &error.repeat(count)].concat()
}

/// C and Rust have the same words for every number.
#[test]
fn every_number_is_said_alike() {
    let request = |first| Request { first, ..Request::new(b'm', b"", 0) };
    let seen = all_alike((0..=255).map(request));
    assert_eq!(seen.values().sum::<usize>(), 256);
}

/// The names `cockledrift_..` before an opening bracket in a text.
fn declared(text: &str) -> BTreeSet<&str> {
    let words = text.split('(').filter_map(|part| {
        part.rsplit(|letter: char| !letter.is_ascii_alphanumeric() && letter != '_').next()
    });
    words.filter_map(|word| word.strip_prefix("cockledrift_")).collect()
}

/// The header, the crate and the calls in C know every function of the proved
/// archive, and no other.
#[test]
fn all_functions_are_declared() {
    let archive = root().join("target/staticlib/libcapi.a");
    let symbols = printed(Command::new("nm").arg("--defined-only").arg(archive));
    let exported: BTreeSet<_> = symbols
        .lines()
        .filter_map(|line| line.split_once(" T ")?.1.strip_prefix("cockledrift_"))
        .collect();
    let text = |path: &str| fs::read_to_string(root().join(path)).expect("the file is there");
    let header = text("include/cockledrift.h");
    let mut of_header = declared(&header);
    for more in ["message", "u16", "i32"] {
        assert!(of_header.remove(more), "{more}");
    }
    assert_eq!(of_header, exported);
    let library = text("rust/cockledrift/src/library.rs");
    let of_crate = declared(library.split("extern \"C\" {").nth(1).expect("declarations"));
    assert_eq!(of_crate, exported);
    let calls = text("rust/interface/c/calls.c");
    let unused: Vec<_> =
        exported.iter().filter(|name| !calls.contains(&format!("cockledrift_{name}"))).collect();
    assert!(unused.is_empty(), "no call of {unused:?}");
}

/// What makes calls safe in threads: no byte of the library can be written.
#[test]
fn the_library_has_no_memory_of_its_own() {
    let folder = program().parent().expect("a folder");
    let symbols = printed(Command::new("nm").arg(folder.join("libcockledrift.a")));
    let writable: Vec<_> = symbols
        .lines()
        .filter(|line| matches!(line.get(17..18), Some("b" | "B" | "d" | "D" | "C" | "s" | "S")))
        .collect();
    assert!(writable.is_empty(), "{writable:?}");
    assert!(symbols.contains(" T cockledrift_read\n"), "{symbols}");
}

/// Guard pages and sanitizers find what no call may do.
#[test]
fn trespasses_in_c_are_found() {
    for (letter, first) in [(b'>', 0), (b'<', 0), (b'?', 40)] {
        let mut child = Command::new(program())
            .stdin(Stdio::piped())
            .stdout(Stdio::null())
            .stderr(Stdio::null())
            .spawn()
            .expect("the program in C runs");
        let request = Request { first, ..Request::new(letter, b"", 10) };
        child.stdin.take().expect("its standard input").write_all(&request.bytes()).expect("taken");
        let status = child.wait().expect("the program in C ends");
        assert!(!status.success(), "{} is let through", letter as char);
    }
}

/// The same in Rust: this program once more, which reads a byte past what it is
/// lent, or one before.
#[test]
fn trespasses_in_rust_are_found() {
    use interface::guard::{Guarded, Side};
    const ASKED: &str = "COCKLEDRIFT_TRESPASS";
    if let Ok(side) = env::var(ASKED) {
        let mut guarded = Guarded::new(100);
        let side = if side == "behind" { Side::Behind } else { Side::Front };
        let lent = guarded.lend(10, side);
        let place = if side == Side::Behind { 10 } else { -1 };
        // SAFETY: none. The guard page ends the program here.
        let byte = unsafe { ptr::read_volatile(lent.as_ptr().offset(place)) };
        panic!("read {byte}");
    }
    for side in ["behind", "front"] {
        let mut again = Command::new(env::current_exe().expect("this program"));
        again.args(["--exact", "trespasses_in_rust_are_found", "--nocapture"]).env(ASKED, side);
        let Output { status, stderr, .. } = run(&mut again);
        const SEGMENT_VIOLATION: i32 = 11;
        // Under the address sanitizer it is that which ends the program.
        let told = String::from_utf8_lossy(&stderr).contains("AddressSanitizer: SEGV");
        assert!(status.signal() == Some(SEGMENT_VIOLATION) || told, "{side}: {status}");
    }
}
