//! Rows of a table of instructions: bin/measure runs the program under callgrind, which counts inside the named
//! functions only, and reads the two counts of each row off the files that it writes when `row_done` returns.

use std::hint::black_box;

#[unsafe(no_mangle)]
#[inline(never)]
fn row_done() {
    black_box(());
}

/// One row: its name, what the counts are divided by, then the two counts, with an answer that must be the same.
pub fn row<T: PartialEq>(name: &str, parts: usize, hub: impl FnOnce() -> T, rust: impl FnOnce() -> T) {
    println!("{name}|{parts}");
    let ours = hub();
    row_done();
    let theirs = rust();
    row_done();
    assert!(ours == theirs, "the answers differ: {name}");
}
