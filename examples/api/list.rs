use cockledrift::{Record, Sheet, Station};
use std::error::Error;
use std::{env, fs};

fn main() -> Result<(), Box<dyn Error>> {
    let file = fs::read(env::args().nth(1).ok_or("list FILE")?)?;
    for record in Sheet::read(&file)?.records() {
        if let Record::Station(Station { at, label, .. }) = record {
            println!("{} at {} {} {}", String::from_utf8_lossy(label), at.x, at.y, at.z);
        }
    }
    Ok(())
}
