//! rusttrace: the Rust original, with buckets of request C-17 (oracle/opened/kept.rs), as a program: a trace on
//! standard input and its answer on standard output, as `hubtrace` does it for the port.

use std::io::{Read, Write, stdin, stdout};

fn main() -> std::io::Result<()> {
    let mut text = Vec::new();
    // One byte more than is looked at tells a text that is too long.
    stdin().take(trace::LONGEST as u64 + 1).read_to_end(&mut text)?;
    let mut out = Vec::new();
    trace::run(&text, &mut out);
    stdout().write_all(&out)
}
