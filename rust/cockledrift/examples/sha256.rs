//! Prints the SHA-256 of each file named, as `sha256sum` does. The file is taken
//! in by parts of 64 KiB.

use cockledrift::Sha256;
use std::fs::File;
use std::io::{self, Read};

fn main() -> io::Result<()> {
    let mut part = [0; 1 << 16];
    for name in std::env::args().skip(1) {
        let mut file = File::open(&name)?;
        let mut running = Sha256::start();
        loop {
            let count = file.read(&mut part)?;
            if count == 0 {
                break;
            }
            running.update(&part[..count]);
        }
        let digest: String = running.finish().iter().map(|byte| format!("{byte:02x}")).collect();
        println!("{digest}  {name}");
    }
    Ok(())
}
