//! What memory each call needs: what the caller gives and lends, and the stack.
//!
//! The stack is measured by painting: a function fills a large local array with one
//! value and returns; the call then runs over that part of the stack; and what is left
//! of the paint is read back through `/proc/self/mem`, so that no unsafe code is needed.

use super::made::{Case, Made};
use super::options::Options;
use super::rows::{rows, Call, Given, Lent, Row};
use super::text::{grouped, Table};
use std::fs::File;
use std::hint::black_box;
use std::os::unix::fs::FileExt;

const PAINTED: usize = 512 * 1024;
const PAINT: u8 = 0xa5;

pub fn print(options: &Options) {
    let (least, most) = (options.sizes.iter().min(), options.sizes.iter().max());
    let sizes = [*least.expect("a size"), *most.expect("a size")];
    let floor = stack(|_, _| [0; 4], &Case::of(Made::Turn.file(1 << 16)), &mut Lent::default());
    println!("### Memory\n");
    println!(
        "Bytes. No call of the proved library allocates. The stack is painted before the call"
    );
    println!("and read afterwards; a call that does nothing is seen to use {}.\n", shown(floor));
    let [small, large] = sizes;
    let names: Vec<String> = [
        "call".into(),
        "of".into(),
        format!("given, {large} MiB file"),
        "lent".into(),
        format!("stack, {small} MiB"),
        format!("stack, {large} MiB"),
        "beside".into(),
        "its stack".into(),
    ]
    .into();
    let names: Vec<&str> = names.iter().map(String::as_str).collect();
    let mut table = Table::new(&names);
    let rows = rows();
    let mut held: Option<(Made, [Case; 2])> = None;
    for row in rows.iter().filter(|row| options.wants_row(row.name)) {
        if held.as_ref().is_none_or(|(made, _)| *made != row.made) {
            held = Some((row.made, sizes.map(|size| Case::of(row.made.file(size << 20)))));
        }
        let (_, cases) = held.as_ref().expect("two cases");
        table.line(line(row, cases));
    }
    table.print();
}

fn line(row: &Row, [small, large]: &[Case; 2]) -> Vec<String> {
    let mut lent = (row.lent)(large);
    let given = match row.given {
        Given::File => large.file.len(),
        Given::Sheet => large.sheet.len(),
    };
    vec![
        row.name.into(),
        row.made.words(),
        grouped(given),
        grouped(lent.bytes()),
        shown(stack(row.proved, small, &mut (row.lent)(small))),
        shown(stack(row.proved, large, &mut lent)),
        row.others[0].name.into(),
        shown(stack(row.others[0].call, large, &mut lent)),
    ]
}

fn shown(stack: Option<usize>) -> String {
    stack.map_or("over 512 KiB".into(), grouped)
}

/// How much of the stack a call uses; nothing where it is more than was painted.
#[inline(never)]
fn stack(call: Call, case: &Case, lent: &mut Lent) -> Option<usize> {
    let memory = File::open("/proc/self/mem").expect("this process's memory can be read");
    let mut part = vec![0; PAINTED];
    let start = paint();
    black_box(call(case, lent));
    memory.read_exact_at(&mut part, start as u64).expect("the stack can be read");
    // The front of the painted part is the deepest.
    let untouched = part.iter().take_while(|byte| **byte == PAINT).count();
    (untouched > 0).then_some(PAINTED - untouched)
}

/// Paints what lies below the caller's part of the stack, and answers where.
#[inline(never)]
fn paint() -> usize {
    let mut part = [PAINT; PAINTED];
    black_box(&mut part);
    part.as_ptr() as usize
}
