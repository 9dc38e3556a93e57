//! Each call beside the others', over one made file.

use super::made::{Case, Made};
use super::options::Options;
use super::rows::{rows, Given, Row};
use super::text::{grouped, Table};
use super::timing::timed;

pub fn print(options: &Options) {
    println!("### Times\n");
    println!("Made files of {} MiB, {} repetitions.\n", options.mib, options.repeat);
    let names = ["call", "of", "bytes given", "ms", "beside", "its ms", "ratio", "of bests"];
    let mut table = Table::new(&names);
    let rows = rows();
    // Files are made once for all rows over them that follow each other.
    let mut held: Option<(Made, Case)> = None;
    for row in rows.iter().filter(|row| options.wants_row(row.name)) {
        if held.as_ref().is_none_or(|(made, _)| *made != row.made) {
            held = Some((row.made, Case::of(row.made.file(options.mib << 20))));
        }
        let (_, case) = held.as_ref().expect("a case");
        lines(row, case, options.repeat, &mut table);
    }
    table.print();
}

fn lines(row: &Row, case: &Case, repeats: usize, table: &mut Table) {
    let times = timed(row, case, repeats);
    let given = match row.given {
        Given::File => case.file.len(),
        Given::Sheet => case.sheet.len(),
    };
    for (number, other) in row.others.iter().enumerate() {
        let other_call = number + 1;
        let first = |text: String| if number == 0 { text } else { String::new() };
        table.line(vec![
            first(row.name.into()),
            first(row.made.words()),
            first(grouped(given)),
            first(format!("{:.2}", times.median(0))),
            other.name.into(),
            format!("{:.2}", times.median(other_call)),
            format!("{:.2}", times.ratio(other_call)),
            format!("{:.2}", times.best(0) / times.best(other_call)),
        ]);
    }
}
