//! Prints the values of a file, one a line: cargo run --example print FILE

use std::{env, error::Error, fs::File};

fn main() -> Result<(), Box<dyn Error>> {
    let path = env::args_os().nth(1).ok_or("print FILE")?;
    for value in gob::Reader::new(File::open(path)?)? {
        println!("{}", value?);
    }
    Ok(())
}
