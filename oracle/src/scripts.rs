//! scripts PROGRAM [--seed N]: random scripts of calls through the built program of crates/calls against the Rust
//! original with buckets of request C-17: every answer, and every field of the state after each line. What the scripts
//! met is counted; anything that was never met is a failure. In what each of the two said, apart from the other, the
//! bound of request C-24 must hold. Over an original that chooses rules by MQTT 3.1.1 the scripts make monitors that do.

mod answers;
mod checks;
mod drafts;
mod levels;
mod make;
mod met;
mod mqtt;
mod pairs;
mod play;
mod queued;
mod reader;
mod relatives;
mod reload;
mod said;
mod samples;
mod scribe;
mod silent;
mod tally;
mod tried;
mod windows;

use met::Met;
use pairs::Pairs;
use scribe::Maker;
use std::fmt::Display;
use std::io::{Read, Write};
use std::process::{Command, Stdio};
use tally::{Class, Random};
use vs_mqtt_monitor::matcher::STANDARD;
use windows::{Fault, Windows};

/// Scripts of each maker, for each seed; fewer of monitors that differ from the port's by the choice of a rule alone.
const SCRIPTS: usize = if STANDARD { 70 } else { 210 };

/// Who says something to a script.
const SIDES: [&str; 2] = ["original", "program"];

/// The longest text that the program reads.
const LONGEST: usize = 65_536;

fn main() {
    let words: Vec<String> = std::env::args().skip(1).collect();
    let (program, words) = words.split_first().expect("usage: scripts PROGRAM [--seed N]");
    let seeds = tally::seeds(words);
    let pairs = Pairs::search();
    let sides = SIDES.map(|side| Windows::new(&format!("what a removal can cost, as the {side} says it")));
    let mut run = Run { program, met: Met::default(), sides, classes: Vec::new() };
    for seed in seeds {
        let mut random = Random(seed);
        for maker in scribe::MAKERS {
            run.scripts(maker, seed, &mut random, &pairs);
        }
    }
    run.met();
    run.classes.extend(run.sides.map(Windows::seen));
    if !tally::report(&run.classes) {
        std::process::exit(1);
    }
}

/// A script and what the original says to it.
struct Script {
    lines: Vec<String>,
    said: String,
}

/// The classes so far, and how often each thing was met.
struct Run<'a> {
    program: &'a str,
    met: Met,
    sides: [Windows; 2],
    classes: Vec<Class>,
}

impl Run<'_> {
    /// The scripts of one maker, as many at once as the program reads.
    fn scripts(&mut self, maker: &Maker, seed: u64, random: &mut Random, pairs: &Pairs) {
        let mut class = Class::new(format!("{}, seed {seed}", maker.0));
        let before: Vec<u64> = maker.2.iter().map(|what| self.met.times(what)).collect();
        let (mut text, mut together) = (String::new(), Vec::new());
        for _ in 0..SCRIPTS {
            let play = scribe::make(maker, random.next(), pairs, &mut self.met);
            let (more, lines, said) = (play::text(&play.lines), play.lines, play.said);
            if text.len() + more.len() > LONGEST {
                self.compare(&mut class, &text, &together);
                text.clear();
                together.clear();
            }
            text += &more;
            together.push(Script { lines, said });
        }
        self.compare(&mut class, &text, &together);
        for (what, before) in maker.2.iter().zip(before) {
            class.seen(what, self.met.times(what) - before);
        }
        self.classes.push(class);
    }

    /// Compares the answers to scripts that are one text; if any differ, to each of them alone.
    fn compare(&mut self, class: &mut Class, text: &str, scripts: &[Script]) {
        let said = said(self.program, text);
        let expected = scripts.iter().map(|script| script.said.as_bytes());
        let same = expected.flatten().eq(&said);
        for script in scripts {
            if !same && differs(self.program, &script.lines).is_some() {
                let differ = |lines: &[String]| differs(self.program, lines);
                let smaller = if class.clean() { shrink(&script.lines, differ) } else { script.lines.clone() };
                class.differ(smaller.len(), || {
                    saved(&smaller, self.classes.len(), &differ(&smaller).unwrap_or_default())
                });
            }
            class.agree();
            self.windows(0, &script.said);
        }
        self.windows(1, &String::from_utf8_lossy(&said));
        if !same && class.clean() {
            class.differ(0, || "scripts that differ only one after another".into());
        }
    }

    /// Counts the windows of what a side said, to one script or to more. A fault is looked for again in fewer lines.
    fn windows(&mut self, side: usize, said: &str) {
        let Some(fault) = self.sides[side].read(said) else { return };
        let again = |lines: &[String]| Windows::new("").read(&says(self.program, side, lines));
        let class = &mut self.sides[side].class;
        let lines = if class.clean() { shrink(&fault.lines, again) } else { fault.lines.clone() };
        let Fault { lines, window, words } = again(&lines).unwrap_or(fault);
        class.differ(window, || saved(&lines, SIDES[side], &format!("the last {window}: {words}")));
    }

    /// One class for all that a run must have met.
    fn met(&mut self) {
        let mut class = Class::new("all that the scripts must have met");
        for name in play::all() {
            class.seen(name, self.met.times(name));
            class.agree();
        }
        self.classes.push(class);
    }
}

/// What the program says to a text. It reads all of it before it says anything, so neither waits for the other; what it
/// did not read shows in what it says.
fn said(program: &str, text: &str) -> Vec<u8> {
    assert!(text.len() <= LONGEST, "a script of {} bytes", text.len());
    let mut child = Command::new(program)
        .stdin(Stdio::piped())
        .stdout(Stdio::piped())
        .spawn()
        .unwrap_or_else(|error| panic!("{program}: {error}"));
    let mut said = Vec::new();
    let _ = child.stdin.take().expect("a pipe").write_all(text.as_bytes());
    child.stdout.take().expect("a pipe").read_to_end(&mut said).expect("the program writes");
    let status = child.wait().expect("the program ends");
    if !status.success() {
        said.extend(format!("\nthe program ended with {status}\n").as_bytes());
    }
    said
}

/// What a side says to a script.
fn says(program: &str, side: usize, lines: &[String]) -> String {
    if SIDES[side] == "original" {
        play::said(lines)
    } else {
        String::from_utf8_lossy(&said(program, &play::text(lines))).into_owned()
    }
}

/// The first line of the answers that differs, if any, with the line of the script that it belongs to.
fn differs(program: &str, lines: &[String]) -> Option<String> {
    let [expected, said] = [0, 1].map(|side| says(program, side, lines));
    if said == expected {
        return None;
    }
    let mut last = "";
    for (port, rust) in said.lines().chain(["(the end)"]).zip(expected.lines().chain(["(the end)"])) {
        if let Some((line, _)) = rust.split_once(" ->").filter(|(line, _)| *line != "all") {
            last = line;
        }
        if port != rust {
            return Some(format!("after `{last}`: here `{port}`, expected `{rust}`"));
        }
    }
    Some("one answer is the beginning of the other".into())
}

/// Leaves out lines for as long as something is still found, long runs first. The first stays, which makes the monitor.
fn shrink<T>(lines: &[String], found: impl Fn(&[String]) -> Option<T>) -> Vec<String> {
    let mut lines = lines.to_vec();
    let mut run = lines.len();
    while run > 0 {
        let mut from = 1;
        while from + run <= lines.len() {
            let fewer = [&lines[..from], &lines[from + run..]].concat();
            if found(&fewer).is_some() {
                lines = fewer;
            } else {
                from += run;
            }
        }
        run /= 2;
    }
    lines
}

/// Writes a script beside this program, and says where, what it is and what is wrong with it.
fn saved(lines: &[String], name: impl Display, wrong: &str) -> String {
    let matcher = if STANDARD { "standard-" } else { "" };
    let path = std::env::current_exe().unwrap().with_file_name(format!("differs-{matcher}{name}.script"));
    std::fs::write(&path, play::text(lines)).unwrap();
    let short = if lines.len() <= 12 { format!("\n        {}", lines.join("\n        ")) } else { String::new() };
    format!("{} of {} lines: {wrong}{short}", path.display(), lines.len())
}
