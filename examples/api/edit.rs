use cockledrift::{edit_vec, Point, Record, Sheet, Station};
use std::error::Error;
use std::{env, fs};

fn main() -> Result<(), Box<dyn Error>> {
    let names: Vec<_> = env::args().collect();
    let [_, from, to] = &names[..] else {
        return Err("edit FILE NEW".into());
    };
    let v8 = Sheet::read(&fs::read(from)?)?.write()?;
    let station = Station { flags: 4, at: Point { x: 100, y: 0, z: 0 }, label: b"a.1" };
    let mut new = Vec::new();
    Record::Station(station).lay(&mut new);
    let edited = edit_vec(&v8, 0, 2, &new)?; // two records, from record 0 on, make way for it
    fs::write(to, &edited)?;
    println!("{} records in {} bytes", Sheet::read(&edited)?.records().count(), edited.len());
    Ok(())
}
