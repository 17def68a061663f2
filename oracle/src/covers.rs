//! covers [--seed N]: whether an earlier pattern matches every name that a later one matches, and a name by which it is
//! seen that it does not (request C-20): the archive's `hub_covers` and `hub_witness` under the port's matcher and under
//! the standard's, each in a thread of its own. Short patterns are held to what the Rust original, or libmosquitto for
//! the standard, says of all short names; longer ones to a second decision (levels.rs), which stands the same test. The
//! name must be the very one that the definition has, by the original's or libmosquitto's word (samples.rs).

mod hub;
mod levels;
mod make;
mod mosquitto;
mod relatives;
mod samples;
mod shown;
mod tally;

use make::{BROKEN, SIGNS, among, short};
use samples::{Try, tries};
use shown::{Matcher, Shown, witness};
use std::collections::HashMap;
use std::ffi::CString;
use tally::{Class, Random};
use trace::rules::refusal;

/// Random pairs for each seed.
const PAIRS: usize = 100_000;

/// Pairs, each with the name that only the later pattern matches, by the port and by the standard.
const KNOWN: [(&str, &str, [Option<&str>; 2]); 14] = [
    // The request's own: the shadow count calls the later one dead.
    ("a/+", "a/#", [Some("a"); 2]),
    ("a/#", "a/+", [None; 2]),
    ("#", "a", [None; 2]),
    ("a", "+", [Some("b"); 2]),
    ("+", "#", [Some("a/"); 2]),
    // The empty string is no name.
    ("+/#", "#", [None; 2]),
    ("+/#", "/#", [None; 2]),
    // An empty level at the end, which `+` takes under the standard alone.
    ("a/+", "a/", [Some("a/"), None]),
    ("/+", "/#", [Some("/"), Some("/a/")]),
    ("/+/#", "/#", [Some("/"), None]),
    ("+/+/#", "/#", [Some("/"), None]),
    // The dollar sign, which keeps wildcards away under the standard alone.
    ("#", "$SYS/#", [None, Some("$SYS")]),
    ("+/a", "$/a", [None, Some("$/a")]),
    ("$SYS/#", "$SYS/+", [None; 2]),
];

fn main() {
    let words: Vec<String> = std::env::args().skip(1).collect();
    let seeds = tally::seeds(&words);
    let [(port, by_port), (standard, by_standard)] = std::thread::scope(|scope| {
        let threads = [Matcher::Port, Matcher::Standard].map(|matcher| scope.spawn(move || compare(matcher, seeds)));
        threads.map(|thread| thread.join().expect("the lines above say why"))
    });
    let mut both = Class::new("both matchers on all pairs of short patterns");
    let mut count = [[0; 2]; 2];
    for (port, standard) in by_port.into_iter().zip(by_standard) {
        count[port as usize][standard as usize] += 1;
        both.agree();
    }
    both.seen("covered under both", count[1][1]);
    both.seen("under the port alone", count[1][0]);
    both.seen("under the standard alone", count[0][1]);
    let classes: Vec<Class> = port.into_iter().chain(standard).chain([both]).collect();
    if !tally::report(&classes) {
        std::process::exit(1);
    }
}

/// All under one matcher: the classes, and which of all pairs of short patterns are covered.
fn compare(matcher: Matcher, seeds: [u64; 2]) -> (Vec<Class>, Vec<bool>) {
    let (short, covered) = short_patterns(matcher);
    let random = seeds.map(|seed| random_patterns(matcher, seed));
    let classes = [known_answers(matcher), short].into_iter().chain(random).chain([refused_patterns(matcher)]);
    (classes.collect(), covered)
}

/// Pairs whose answers follow from the request's words alone: the definition must have these names.
fn known_answers(matcher: Matcher) -> Class {
    let mut shown = Shown::new(matcher, "pairs with answers that are known");
    for (earlier, later, names) in KNOWN {
        let found = matcher.only_later(earlier.as_bytes(), later.as_bytes());
        let name = names[matcher.standard() as usize];
        assert_eq!(found.as_ref().map(|tried| &tried.name[..]), name.map(str::as_bytes), "{earlier} before {later}");
        shown.compare(earlier.as_bytes(), later.as_bytes(), name.is_none(), found.as_ref());
    }
    shown.class
}

/// Every pair of patterns that are taken of at most 5 of the signs, decided by the names of at most 7 bytes that each
/// matches: all letters that a pattern can have, and one that none has.
fn short_patterns(matcher: Matcher) -> (Class, Vec<bool>) {
    let mut shown = Shown::new(matcher, "all pairs of patterns to 5 of six signs, by all names to 7");
    let text = |string| CString::new(string).expect("no sign is zero");
    let patterns: Vec<CString> = short(SIGNS, 5).into_iter().filter(|p| refusal(p) == 0).map(text).collect();
    let names: Vec<CString> = short(b"/$abc", 7).into_iter().skip(1).map(text).collect();
    let places: HashMap<&[u8], usize> =
        names.iter().enumerate().map(|(place, name)| (name.to_bytes(), place)).collect();
    let sets: Vec<Vec<u64>> = patterns.iter().map(|pattern| matched(matcher, &names, pattern)).collect();
    let has = |set: &[u64], place: usize| set[place / 64] >> (place % 64) & 1 == 1;
    let mut all = Vec::new();
    for (later, its) in patterns.iter().zip(&sets) {
        let place = |tried: Try| (places[&tried.name[..]], tried);
        let tries: Vec<(usize, Try)> = tries(later.to_bytes()).into_iter().map(place).collect();
        for (earlier, taken) in patterns.iter().zip(&sets) {
            let covered = its.iter().zip(taken).all(|(its, taken)| its & !taken == 0);
            let found = tries.iter().find(|(place, _)| has(its, *place) && !has(taken, *place));
            shown.compare(earlier.to_bytes(), later.to_bytes(), covered, found.map(|(_, tried)| tried));
            all.push(covered);
        }
    }
    (shown.met(), all)
}

/// The names that a pattern matches, a bit for each.
fn matched(matcher: Matcher, names: &[CString], pattern: &CString) -> Vec<u64> {
    let bit = |name| u64::from(matcher.matches(name, pattern));
    names.chunks(64).map(|names| names.iter().rev().fold(0, |bits, name: &CString| bits << 1 | bit(name))).collect()
}

/// Random patterns of up to the longest, both ways round.
fn random_patterns(matcher: Matcher, seed: u64) -> Class {
    let mut shown = Shown::new(matcher, &format!("random pairs of patterns both ways round, seed {seed}"));
    let random = &mut Random(seed);
    for _ in 0..PAIRS {
        let [first, second] = &relatives::pair(random);
        for (earlier, later) in [(first, second), (second, first)] {
            let covered = levels::covers(earlier, later, matcher.standard());
            shown.compare(earlier, later, covered, matcher.only_later(earlier, later).as_ref());
        }
    }
    shown.met_longest()
}

/// Patterns that are refused, in either place or in both: the earlier one's number comes first, and there is no name.
fn refused_patterns(matcher: Matcher) -> Class {
    let mut shown = Shown::new(matcher, "pairs with a pattern that is refused");
    let long = [64, 65, 128, 65_536].map(|len| vec![b'a'; len]);
    let broken = BROKEN.iter().flat_map(|string| (0..5).map(|way| among(string, way)));
    // A zero byte or too many bytes come before UTF-8, and all else behind it.
    let twice = [&b"\0\x80"[..], &[0x80; 65], b"\x80/+/+/+/+", b"\x80+", b"+/+/+/+", b"+/+/+/#"].map(<[u8]>::to_vec);
    let all = short(b"/#+a\0\x80", 3).into_iter().chain(long).chain(broken).chain(twice);
    let all: Vec<(u32, Vec<u8>)> = all.map(|pattern| (refusal(&pattern), pattern)).collect();
    let mut met = [[0; 3]; 3];
    let kind = |number: u32| [0, 9, 36].iter().position(|known| *known == number).expect("a number of document 02");
    for (before, earlier) in &all {
        for (behind, later) in all.iter().filter(|(behind, _)| before + behind != 0) {
            let number = if *before == 0 { *behind } else { *before };
            shown.expect(earlier, later, number, witness(number, b""));
            met[kind(*before)][kind(*behind)] += 1;
        }
    }
    let mut class = shown.class;
    for (earlier, later) in [(0, 9), (0, 36), (9, 0), (36, 0), (9, 9), (9, 36), (36, 9), (36, 36)] {
        class.seen(&format!("{earlier} before {later}"), met[kind(earlier)][kind(later)]);
    }
    class
}
