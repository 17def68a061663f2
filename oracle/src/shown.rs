//! One pair of patterns through the archive's `hub_covers` and `hub_witness`, under one matcher, and what the pairs of a
//! class met: how many are covered, and how far one has to try for a name that shows that another is not.

use crate::hub::{self, HubWitness};
use crate::levels;
use crate::mosquitto;
use crate::samples::{Try, only_later};
use crate::tally::Class;
use std::ffi::{CStr, CString};
use vs_mqtt_monitor::opened;

/// The longest name.
const NAME_MAX: usize = 128;

/// How much of the longest name was left out.
const CUTS: [&str; 5] =
    ["whole", "without the last byte", "without the last 2", "without the last 3", "without the last 4"];

/// The two matchers: the Rust original's, and that of MQTT 3.1.1, for which libmosquitto is asked.
#[derive(Clone, Copy, Debug, PartialEq)]
pub enum Matcher {
    Port,
    Standard,
}

impl Matcher {
    pub fn standard(self) -> bool {
        self == Matcher::Standard
    }

    pub fn matches(self, name: &CStr, pattern: &CStr) -> bool {
        match self {
            Matcher::Port => opened::topic_matches(name.to_bytes(), pattern.to_bytes()),
            Matcher::Standard => {
                let answer = mosquitto::matches(name, pattern);
                assert_ne!(answer, 9, "libmosquitto refuses {name:?} or {pattern:?}");
                answer == 1
            }
        }
    }

    /// The name that the definition has for two patterns that are taken.
    pub fn only_later(self, earlier: &[u8], later: &[u8]) -> Option<Try> {
        let text = |bytes: &[u8]| CString::new(bytes).expect("neither a pattern nor its names have a zero byte");
        only_later(earlier, later, |name, pattern| self.matches(&text(name), &text(pattern)))
    }
}

/// A class of pairs, and what they met.
pub struct Shown {
    matcher: Matcher,
    pub class: Class,
    covered: u64,
    cuts: [u64; 5],
    second_letter: u64,
    longest: u64,
    dollar: u64,
}

impl Shown {
    pub fn new(matcher: Matcher, what: &str) -> Shown {
        let class = Class::new(format!("{matcher:?}: {what}"));
        Shown { matcher, class, covered: 0, cuts: [0; 5], second_letter: 0, longest: 0, dollar: 0 }
    }

    /// One pair that is taken: whether it is covered, and the name that shows that it is not. On our own side the second
    /// decision and the name must both say the same.
    pub fn compare(&mut self, earlier: &[u8], later: &[u8], covered: bool, found: Option<&Try>) {
        let standard = self.matcher.standard();
        let said = [levels::covers(earlier, later, standard), found.is_none()];
        let (first, second) = (earlier.escape_ascii(), later.escape_ascii());
        assert_eq!(said, [covered; 2], "{:?}, \"{first}\" before \"{second}\": by levels, by names", self.matcher);
        self.expect(earlier, later, covered.into(), witness(0, found.map_or(b"", |tried| &tried.name)));
        self.covered += covered as u64;
        if let Some(Try { name, letter, cut }) = found {
            assert!(name.len() <= NAME_MAX && !opened::contains_invalid_publish_char(name), "no name: {name:?}");
            self.cuts[*cut] += 1;
            self.second_letter += (*letter == b'b') as u64;
            self.longest += (name.len() == 64) as u64;
            self.dollar += levels::covers_but_for_dollar(earlier, later, standard) as u64;
        }
    }

    /// One pair, and what must be said of it.
    pub fn expect(&mut self, earlier: &[u8], later: &[u8], covers: u32, witness: HubWitness) {
        let (input, standard) = ([earlier, later], self.matcher.standard());
        self.class.same(&input, hub::covers(earlier, later, standard), covers);
        self.class.same(&input, hub::witness(earlier, later, standard), witness);
    }

    /// The class, which must have met pairs that are covered, and names of each letter and of each cut.
    pub fn met(mut self) -> Class {
        self.class.seen("covered", self.covered);
        self.class.seen("names of the second letter", self.second_letter);
        for (cut, times) in CUTS.iter().zip(self.cuts) {
            self.class.seen(cut, times);
        }
        if self.matcher.standard() {
            self.class.seen("kept apart by the dollar sign alone", self.dollar);
        }
        self.class
    }

    /// The same of patterns up to the longest.
    pub fn met_longest(mut self) -> Class {
        self.class.seen("names of 64 bytes", self.longest);
        self.met()
    }
}

/// What is handed back: a number or 0, and a name or none.
pub fn witness(number: u32, name: &[u8]) -> HubWitness {
    let mut bytes = [0; NAME_MAX];
    bytes[..name.len()].copy_from_slice(name);
    HubWitness { number, length: name.len(), name: bytes }
}
