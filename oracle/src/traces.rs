//! traces [--seed N]: whole traces through the archive's `hub_trace` against the Rust driver over the original
//! monitor, every byte of every answer. What the traces met is counted; anything that was never met is a failure. A
//! bucket's step is that of request C-17; the original with its own step still decides traces on which both must agree,
//! and must answer some others otherwise. Over an original that chooses rules by MQTT 3.1.1 it is `hub_trace_standard`
//! that is compared, and none has its own step. After each trace, where the limit stands is compared too (standing.rs).

mod damage;
mod hub;
mod limits;
mod make;
mod met;
mod pairs;
mod scenes;
mod standing;
mod tally;
mod tried;

use hub::HubTrace;
use met::Met;
use pairs::Pairs;
use scenes::{APART, CLOCK, GUIDERS, MAKERS, MARKS, Maker, NIGHT};
use std::fmt::Display;
use tally::{Class, Random};
use trace::End;
use vs_mqtt_monitor::matcher::STANDARD;

/// The two exports that are compared.
const HUB_TRACE: fn(&[u8], &mut [u8]) -> HubTrace = if STANDARD { hub::trace_standard } else { hub::trace };
const HUB_TRACE_LENGTH: fn(&[u8]) -> HubTrace = if STANDARD { hub::trace_standard_length } else { hub::trace_length };

/// A Rust driver.
type Driver = fn(&[u8], &mut Vec<u8>) -> End;

// Each driver is over the buckets that it is meant to be.
const _: () = assert!(trace::KEPT && clock_trace::KEPT && !untouched_trace::KEPT);

/// Traces of each maker, for each seed; of each without the limiter.
const TURNS: usize = 100;
const UNLIMITED_TURNS: usize = 20;

/// Document 01's example and its answer.
const EXAMPLE: &str = "default=allow\nrules=1\npattern=6d2f2b\naction=allow\nqos=any\nrate=1\n\
    at=1000000\nclock=ok\ntype=3\nqos=0\ntopic=6d2f61\nsize=0\npayload=\n\
    at=1500000\nclock=ok\ntype=3\nqos=0\ntopic=6d2f61\nsize=0\npayload=\n";
const EXAMPLE_ANSWER: &str = "n=1\nallowed=1\nalerts=0\nn=2\nallowed=0\nalerts=1\nid=1\nkind=5\nseverity=2\n\
    hash=0000000000000000000000000000000000000000000000000000000000000000\n\
    end=0\nline=20\ninspected=2\ntotal=1\n";

fn main() {
    let words: Vec<String> = std::env::args().skip(1).collect();
    let seeds = tally::seeds(&words);
    let pairs = Pairs::search();
    let standing = Class::new("where the limit stands after each of these traces");
    let mut run = Run { met: Met::default(), standing, classes: Vec::new() };
    run.example();
    run.odd_patterns(&pairs);
    run.crowds();
    for seed in seeds {
        let mut random = Random(seed);
        for maker in MAKERS.iter().chain([&APART]).chain(limits::MAKERS) {
            run.scene(maker, seed, &mut random, &pairs);
        }
        run.clock(seed, &mut random, &pairs);
        if !STANDARD {
            run.marks(seed, &mut random, &pairs);
            run.unlimited(seed, &mut random, &pairs);
            run.lost_parts(seed, &mut random, &pairs);
        }
    }
    if !STANDARD {
        run.smallest();
    }
    run.met();
    run.classes.push(run.standing);
    if !tally::report(&run.classes) {
        std::process::exit(1);
    }
}

/// The classes so far, and how often each thing was met.
struct Run {
    met: Met,
    standing: Class,
    classes: Vec<Class>,
}

impl Run {
    fn example(&mut self) {
        let mut class = Class::new("document 01's example, and every small damage of it");
        let mut out = Vec::new();
        trace::run(EXAMPLE.as_bytes(), &mut out);
        assert_eq!(out, EXAMPLE_ANSWER.as_bytes(), "the Rust driver does not write document 01's example");
        self.compare(&mut class, EXAMPLE.as_bytes(), 0);
        for copy in damage::every(EXAMPLE.as_bytes()) {
            self.compare(&mut class, &copy, 0);
        }
        self.classes.push(class);
    }

    /// Patterns that are no UTF-8, at every place of a full table.
    fn odd_patterns(&mut self, pairs: &Pairs) {
        let mut class = Class::new("patterns that are no UTF-8, at each of 32 places");
        let ends = ["end 36", "end 9", "end 0"];
        let before = ends.map(|what| self.met.times(what));
        for text in scenes::odd_patterns(pairs) {
            self.compare(&mut class, &text, 0);
        }
        for (what, before) in ends.iter().zip(before) {
            class.seen(what, self.met.times(what) - before);
        }
        self.classes.push(class);
    }

    /// As many topics as a text has room for.
    fn crowds(&mut self) {
        let mut class = Class::new("as many topics as a text has room for");
        limits::crowds().iter().for_each(|text| self.compare(&mut class, text, 0));
        self.classes.push(class);
    }

    /// The traces of one maker, then a damaged copy of each.
    fn scene(&mut self, maker: &Maker, seed: u64, random: &mut Random, pairs: &Pairs) {
        let mut whole = Class::new(format!("{}, seed {seed}", maker.0));
        let before: Vec<u64> = maker.2.iter().map(|what| self.met.times(what)).collect();
        let mut texts = Vec::new();
        for _ in 0..TURNS {
            let text = scenes::make(maker, random.next(), pairs);
            let spare = random.below(3) * random.below(1000);
            self.compare(&mut whole, &text, spare);
            texts.push(text);
        }
        for (what, before) in maker.2.iter().zip(before) {
            whole.seen(what, self.met.times(what) - before);
        }
        self.classes.push(whole);
        let mut damaged = Class::new(format!("damaged: {}, seed {seed}", maker.0));
        for text in texts {
            self.compare(&mut damaged, &damage::one(random, &text), 0);
        }
        self.classes.push(damaged);
    }

    /// Traces whose verdicts are those of the original's own TimestampValidator: the port, which reads them, against
    /// the original, which finds them itself.
    fn clock(&mut self, seed: u64, random: &mut Random, pairs: &Pairs) {
        let mut class = Class::new(format!("{}, seed {seed}", CLOCK.0));
        let before: Vec<u64> = CLOCK.2.iter().map(|what| self.met.times(what)).collect();
        for _ in 0..TURNS {
            let text = scenes::make(&CLOCK, random.next(), pairs);
            self.compare(&mut class, &text, 0);
            let (mut told, mut found) = (Vec::new(), Vec::new());
            trace::run(&text, &mut told);
            clock_trace::run(&text, &mut found);
            assert!(told == found, "the two variants of the original differ");
        }
        for (what, before) in CLOCK.2.iter().zip(before) {
            class.seen(what, self.met.times(what) - before);
        }
        self.classes.push(class);
    }

    /// Times at which a refill leaves no part of a token.
    fn marks(&mut self, seed: u64, random: &mut Random, pairs: &Pairs) {
        let name = format!("the untouched original: {}, seed {seed}", MARKS.0);
        let texts = (0..TURNS).map(|_| scenes::make(&MARKS, random.next(), pairs)).collect();
        self.untouched(name, texts, MARKS.2);
    }

    /// The traces of every maker, and full nights, with the rate of every rule at 0.
    fn unlimited(&mut self, seed: u64, random: &mut Random, pairs: &Pairs) {
        let name = format!("the untouched original: nights without the limiter, seed {seed}");
        let makers = MAKERS.iter().chain([&APART, &NIGHT]).flat_map(|maker| [maker; UNLIMITED_TURNS]);
        let texts = makers.map(|maker| scenes::unlimited(&scenes::make(maker, random.next(), pairs))).collect();
        let must = ["kind 1", "kind 2", "kind 3", "kind 4", "kind 7", "kind 8", "kind 9", "kind 10", "kind 11"];
        self.untouched(name, texts, &must);
    }

    /// Traces that the original decides with its own buckets, and the one with those of C-17 alike.
    fn untouched(&mut self, name: String, texts: Vec<Vec<u8>>, must: &[&str]) {
        let mut class = Class::new(name);
        let before: Vec<u64> = must.iter().map(|what| self.met.times(what)).collect();
        for text in texts {
            let told = self.met.expected(&text);
            let mut found = Vec::new();
            let end = untouched(&text, &mut found);
            self.judge(&mut class, &text, 0, untouched, end, &found);
            if told != (end, found) {
                class.differ(text.len(), || "the two variants of the original differ".into());
            }
        }
        for (what, before) in must.iter().zip(before) {
            class.seen(what, self.met.times(what) - before);
        }
        self.classes.push(class);
    }

    /// The listed difference: the port answers as C-17 has it, and some traces otherwise than the original does with
    /// its own buckets. That loses parts of tokens, so where they first part it denies a Publish with 5 that the port
    /// allows. Later it may be the other way about, since the port has spent a token more.
    fn lost_parts(&mut self, seed: u64, random: &mut Random, pairs: &Pairs) {
        let mut class = Class::new(format!("listed difference: the lost part of a token, {}, seed {seed}", GUIDERS.0));
        let before: Vec<u64> = GUIDERS.2.iter().map(|what| self.met.times(what)).collect();
        let mut apart = 0;
        for _ in 0..TURNS {
            let text = scenes::make(&GUIDERS, random.next(), pairs);
            self.compare(&mut class, &text, 0);
            match parted(&text) {
                Some(Parted::Denied) => apart += 1,
                Some(Parted::Otherwise(said)) => class.differ(text.len(), || said),
                None => {}
            }
        }
        class.seen("traces that the original answers otherwise", apart);
        for (what, before) in GUIDERS.2.iter().zip(before) {
            class.seen(what, self.met.times(what) - before);
        }
        self.classes.push(class);
    }

    /// The smallest inputs of docs/DIFFERENCES.md, 9 and 10: what the original says to the last message with its own
    /// buckets, and what the port says.
    fn smallest(&mut self) {
        let mut class = Class::new("listed differences: smallest inputs of 9 and 10");
        let kept = scenes::limited(2, &[(0, 0), (0, 0), (750_000, 0), (1_000_000, 0)]);
        let crowd = (1..32).map(|topic| (1, topic));
        let idle: Vec<(u64, usize)> = [(0, 0), (1, 0)].into_iter().chain(crowd).chain([(300_000_001, 32)]).collect();
        for (text, original, port) in [(kept, 0, 1), (scenes::limited(1, &idle), 1, 0)] {
            self.compare(&mut class, &text, 0);
            let (mut found, mut said) = (Vec::new(), Vec::new());
            trace::run(&text, &mut said);
            untouched(&text, &mut found);
            for (answer, wanted) in [(found, original), (said, port)] {
                let verdicts = answer.split(|&byte| byte == b'\n').filter(|line| line.starts_with(b"allowed="));
                if verdicts.last() != Some(format!("allowed={wanted}").as_bytes()) {
                    class.differ(text.len(), || format!("the last message was to be allowed={wanted}"));
                }
            }
        }
        self.classes.push(class);
    }

    /// Compares the answers to one text: into a buffer with `spare` bytes too many, and into ones that are too short.
    fn compare(&mut self, class: &mut Class, text: &[u8], spare: usize) {
        let (end, expected) = self.met.expected(text);
        self.judge(class, text, spare, trace::run, end, &expected);
    }

    /// The same with what a driver said.
    fn judge(&mut self, class: &mut Class, text: &[u8], spare: usize, driver: Driver, end: End, expected: &[u8]) {
        match answered(text, end, expected, spare) {
            Ok(too_short) => self.met.count("end 28", too_short),
            Err(_) => {
                let found = |text: &[u8]| differs(text, spare, driver);
                let smaller = if class.clean() { shrink(text, found) } else { text.to_vec() };
                class.differ(smaller.len(), || saved(&smaller, found, self.classes.len()));
            }
        }
        class.agree();
        self.stands(text);
    }

    /// The same with where the limit stands, whatever the driver: its state is that of the one original that is tried.
    fn stands(&mut self, text: &[u8]) {
        if standing::wrong(text, &mut self.met).is_some() {
            let found = |text: &[u8]| standing::wrong(text, &mut Met::default());
            let smaller = if self.standing.clean() { shrink(text, found) } else { text.to_vec() };
            self.standing.differ(smaller.len(), || saved(&smaller, found, "standing"));
        }
        self.standing.agree();
    }

    /// One class for all that a run must have met.
    fn met(&mut self) {
        let mut class = Class::new("all that the traces must have met");
        for name in met::all() {
            class.seen(name, self.met.times(name));
            class.agree();
        }
        self.classes.push(class);
        for name in standing::all() {
            self.standing.seen(name, self.met.times(name));
        }
    }
}

/// How often the port said 28, in rooms that are too short; or what is wrong with its answers to a text.
fn answered(text: &[u8], end: End, expected: &[u8], spare: usize) -> Result<u64, String> {
    let length = expected.len();
    let wanted = HubTrace { number: end.number, line: end.line.into(), length };
    let mut room = vec![0xa5; length + spare];
    if HUB_TRACE(text, &mut room) != wanted || room[..length] != *expected {
        return Err(first_difference(text, wanted, expected));
    }
    if room[length..].iter().any(|&byte| byte != 0xa5) {
        return Err("bytes behind the answer were changed".into());
    }
    let counted = HUB_TRACE_LENGTH(text);
    if counted != wanted {
        return Err(format!("its length: hub {counted:?}, expected {wanted:?}"));
    }
    let mut too_short = 0;
    // The longest room that is too short, half of the length, and none.
    for short in [length - 1, length / 2, 0] {
        let mut room = vec![0xa5; length];
        let answer = HUB_TRACE(text, &mut room[..short]);
        if answer != (HubTrace { number: 28, line: 0, length: 0 }) || room.iter().any(|&byte| byte != 0xa5) {
            return Err(format!("with room for {short} of {length} bytes: hub {answer:?}, expected 28, 0, 0"));
        }
        too_short += u64::from(answer.number == 28);
    }
    Ok(too_short)
}

/// The first line in which two answers differ, its number from 1 on.
fn first_apart<'a>(hub: &'a [u8], rust: &'a [u8]) -> Option<(usize, &'a [u8], &'a [u8])> {
    let lines = hub.split(|&byte| byte == b'\n').zip(rust.split(|&byte| byte == b'\n'));
    (1..).zip(lines).find(|(_, (hub, rust))| hub != rust).map(|(number, (hub, rust))| (number, hub, rust))
}

/// Both ends, and the first line that differs; the port has room enough to say all.
fn first_difference(text: &[u8], wanted: HubTrace, expected: &[u8]) -> String {
    let mut room = vec![0xa5; 1 << 20];
    let answer = HUB_TRACE(text, &mut room);
    let (number, hub, rust) = first_apart(&room[..answer.length], expected).unwrap_or((0, b"", b""));
    let (hub, rust) = (hub.escape_ascii(), rust.escape_ascii());
    format!("hub {answer:?}, expected {wanted:?}; line {number} of the answer: hub \"{hub}\", expected \"{rust}\"")
}

/// The driver over the original with its own buckets.
fn untouched(text: &[u8], out: &mut Vec<u8>) -> End {
    let untouched_trace::End { number, line } = untouched_trace::run(text, out);
    End { number, line }
}

/// Where two answers part: the original denies a Publish with 5 that the port allows, or what is said.
enum Parted {
    Denied,
    Otherwise(String),
}

/// Where the original with its own buckets first answers otherwise than the port, if it does.
fn parted(text: &[u8]) -> Option<Parted> {
    let (mut expected, mut limited) = (Vec::new(), Vec::new());
    untouched_trace::run_watched(text, &mut expected, |_, message, result| {
        let alerts = &result.alerts[..result.alert_count as usize];
        limited.push(message.packet_type as u8 == 3 && alerts.iter().any(|alert| alert.source_id == 5));
    });
    let mut room = vec![0xa5; 1 << 20];
    let length = HUB_TRACE(text, &mut room).length;
    let (number, hub, rust) = first_apart(&room[..length], &expected)?;
    let before = expected.split(|&byte| byte == b'\n').take(number);
    let message = before.filter(|line| line.starts_with(b"n=")).count();
    if (hub, rust) == (b"allowed=1", b"allowed=0") && limited[message - 1] {
        return Some(Parted::Denied);
    }
    let (hub, rust) = (hub.escape_ascii(), rust.escape_ascii());
    Some(Parted::Otherwise(format!(
        "message {message}, line {number} of the answer: hub \"{hub}\", original \"{rust}\""
    )))
}

/// What is wrong with the port's answers to a text, if anything.
fn differs(text: &[u8], spare: usize, driver: Driver) -> Option<String> {
    let mut expected = Vec::new();
    let end = driver(text, &mut expected);
    answered(text, end, &expected, spare).err()
}

/// Leaves out lines for as long as something is still found, runs of whole messages first, with at most 3000 trials.
fn shrink(text: &[u8], found: impl Fn(&[u8]) -> Option<String>) -> Vec<u8> {
    let mut lines: Vec<&[u8]> = text.split_inclusive(|&byte| byte == b'\n').collect();
    let (mut run, mut trials) = (lines.len() / 7 * 7, 3000);
    while run > 0 {
        let mut from = 0;
        while from + run <= lines.len() && trials > 0 {
            let fewer = [&lines[..from], &lines[from + run..]].concat();
            if found(&fewer.concat()).is_some() {
                lines = fewer;
            } else {
                from += if run < 7 { 1 } else { run };
            }
            trials -= 1;
        }
        run = if run > 7 { run / 14 * 7 } else { run - 1 };
    }
    lines.concat()
}

/// Writes a text beside this program, and says where and what is wrong with its answer.
fn saved(text: &[u8], found: impl Fn(&[u8]) -> Option<String>, name: impl Display) -> String {
    let matcher = if STANDARD { "standard-" } else { "" };
    let path = std::env::current_exe().unwrap().with_file_name(format!("differs-{matcher}{name}.trace"));
    std::fs::write(&path, text).unwrap();
    format!("{} of {} bytes: {}", path.display(), text.len(), found(text).unwrap_or_default())
}
