use cockledrift::{compare, Later};
use std::error::Error;
use std::{env, fs};

fn main() -> Result<(), Box<dyn Error>> {
    let names: Vec<_> = env::args().collect();
    let [_, one, two] = &names[..] else {
        return Err("compare FILE FILE".into());
    };
    match compare(&fs::read(one)?, &fs::read(two)?)? {
        Later::First(line) => println!("file 1: {}", String::from_utf8_lossy(line)),
        Later::Second(line) => println!("file 2: {}", String::from_utf8_lossy(line)),
        Later::Same => println!("the same second"),
    }
    Ok(())
}
