//! How each call's time grows with its file.

use super::made::Case;
use super::options::Options;
use super::rows::rows;
use super::text::Table;
use super::timing::timed_alone;

/// The least of this many repetitions, or of fewer where fewer are asked for.
const REPEATS: usize = 9;

pub fn print(options: &Options) {
    let repeats = options.repeat.min(REPEATS);
    println!("### Growth\n");
    println!("Least ms of {repeats} repetitions, by the made file's size. The last column is the");
    println!("greatest time a byte for the least: 1 is linear.\n");
    let sizes: Vec<String> = options.sizes.iter().map(|size| format!("{size} MiB")).collect();
    let names: Vec<&str> = ["call", "of"]
        .into_iter()
        .chain(sizes.iter().map(String::as_str))
        .chain(["spread"])
        .collect();
    let mut table = Table::new(&names);
    let rows = rows();
    let mut seen = Vec::new();
    for row in rows.iter().filter(|row| options.wants_row(row.name)) {
        if seen.contains(&row.made) {
            continue;
        }
        seen.push(row.made);
        // Every row over this kind of file, size by size, so that each file is made once.
        let alike: Vec<_> = rows
            .iter()
            .filter(|other| other.made == row.made && options.wants_row(other.name))
            .collect();
        let mut times = vec![Vec::new(); alike.len()];
        for size in &options.sizes {
            let case = Case::of(row.made.file(size << 20));
            for (row, times) in alike.iter().zip(&mut times) {
                let best = timed_alone(row, &case, repeats).best(0);
                times.push((best, best / case.file.len() as f64));
            }
        }
        for (row, times) in alike.iter().zip(times) {
            let a_byte = |pick: fn(f64, f64) -> f64, from| {
                times.iter().map(|(_, a_byte)| *a_byte).fold(from, pick)
            };
            let spread = a_byte(f64::max, 0.0) / a_byte(f64::min, f64::INFINITY);
            let mut line = vec![row.name.to_string(), row.made.words()];
            line.extend(times.iter().map(|(best, _)| format!("{best:.2}")));
            line.push(format!("{spread:.2}"));
            table.line(line);
        }
    }
    table.print();
}
