//! benchtraces: whole traces, text in and text out, by the archive and by the Rust driver over the original with
//! buckets of request C-17 (oracle/opened/kept.rs), for bin/measure.
//!   benchtraces write FOLDER    writes the traces that we measure with, a file each
//!   benchtraces count FILE..    each twice by either side, two rows counted by the message: with the room that is
//!                               promised to take one pass, and with a buffer of exactly the answer's length
//!   benchtraces stack FILE..    the deepest stack of either side

mod hub;
mod make;
mod pairs;
mod rows;
mod scenes;
mod stack;
mod tally;

use pairs::Pairs;
use rows::row;
use scenes::{MAKERS, NIGHT};
use std::fmt::Write;
use std::hint::black_box;
use std::path::Path;

/// Room for any answer.
const ROOM: usize = 1 << 20;

fn main() {
    let words: Vec<String> = std::env::args().skip(1).collect();
    let (mode, places) = words.split_first().expect("write, count or stack");
    match mode.as_str() {
        "write" => write_traces(Path::new(&places[0])),
        "count" => places.iter().for_each(|file| count(Path::new(file))),
        "stack" => print_stack(places),
        _ => panic!("write, count or stack"),
    }
}

#[unsafe(no_mangle)]
#[inline(never)]
fn rust_trace(text: &[u8], out: &mut Vec<u8>) {
    trace::run(text, out);
}

/// How many messages a whole trace has; 0 for one that is refused.
fn messages(text: &[u8]) -> usize {
    let mut count = 0;
    let end = trace::run_watched(text, &mut Vec::new(), |_, _, _| count += 1);
    if end.number == 0 { count } else { 0 }
}

/// One long trace of every maker, a full one, and one by hand.
fn write_traces(folder: &Path) {
    let pairs = Pairs::search();
    let write = |name: &str, text: &[u8]| std::fs::write(folder.join(name), text).unwrap();
    write("32 rules with limiter and tracker", &busy());
    write(NIGHT.0, &scenes::make(&NIGHT, tally::FIXED_SEED, &pairs));
    for maker in MAKERS.iter().filter(|maker| maker.0 != "small") {
        let mut texts = (tally::FIXED_SEED..).map(|seed| scenes::make(maker, seed, &pairs));
        write(maker.0, &texts.find(|text| messages(text) >= 50).unwrap());
    }
}

/// 500 messages that the last of 32 rules takes, on 16 topics, with limiter and tracker.
fn busy() -> Vec<u8> {
    let hex = |text: String| text.bytes().map(|byte| format!("{byte:02x}")).collect::<String>();
    let mut text = String::from("default=block\nrules=32\n");
    for rule in 0..32 {
        let pattern = hex(if rule < 31 { format!("site/+/room-{rule}/#") } else { "site/+/lamp/+".into() });
        write!(text, "pattern={pattern}\naction=allow\nqos=min1\nrate=10\n").unwrap();
    }
    for message in 0..500 {
        let topic = hex(format!("site/north/lamp/{}", message % 16));
        let at = message * 10_000;
        write!(text, "at={at}\nclock=ok\ntype=3\nqos=1\ntopic={topic}\nsize=20\npayload=0102\n").unwrap();
    }
    text.into_bytes()
}

fn count(file: &Path) {
    let text = std::fs::read(file).unwrap();
    let name = file.file_stem().unwrap().to_string_lossy();
    let parts = messages(&text).max(1);
    let mut answer = Vec::new();
    trace::run(&text, &mut answer);
    for room in [(12 * text.len()).max(109), answer.len()] {
        let hub = || {
            let mut out = vec![0; room];
            let length = hub::trace(black_box(&text), &mut out).length;
            out.truncate(length);
            out
        };
        let rust = || {
            let mut out = Vec::with_capacity(room);
            rust_trace(black_box(&text), &mut out);
            out
        };
        row(&name, parts, hub, rust);
    }
}

fn print_stack(files: &[String]) {
    let (mut room, mut out) = (vec![0; ROOM], Vec::with_capacity(ROOM));
    let mut deepest = [0, 0];
    for file in files {
        let text = std::fs::read(file).unwrap();
        out.clear();
        let ours = stack::depth(|| _ = hub::trace(&text, &mut room));
        let theirs = stack::depth(|| rust_trace(&text, &mut out));
        deepest = [deepest[0].max(ours), deepest[1].max(theirs)];
    }
    println!("deepest stack of a whole trace: Rattle {} bytes, Rust {} bytes", deepest[0], deepest[1]);
}
