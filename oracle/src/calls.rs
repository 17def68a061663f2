//! calls: the script of crates/calls/stdin through the Rust original, its answers as crates/calls writes those of the
//! port.

mod answers;
mod checks;
mod levels;
mod mqtt;
mod queued;
mod reader;
mod reload;
mod samples;
mod silent;
mod tally;
mod tried;

use answers::Original;
use std::io::{Read, stdin};

fn main() -> std::io::Result<()> {
    let mut script = String::new();
    stdin().read_to_string(&mut script)?;
    let mut original = Original::new();
    for line in script.lines() {
        if line.is_empty() || line.starts_with('#') {
            println!("{line}");
        } else {
            println!("{line} ->{}", original.answer(line));
        }
    }
    Ok(())
}
