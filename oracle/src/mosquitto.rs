//! The standard matcher and the tests of filters and names against a second opinion that nobody here wrote: Debian's
//! libmosquitto, which keeps MQTT 3.1.1. Only what both define is asked. Of matching no difference is known; where the
//! tests of filters are known to differ it is said here, so that any other difference is a failure, and so is a known one
//! that is never met.

use crate::hub;
use crate::make::{LENGTHS, SIGNS, pattern, short, topic};
use crate::tally::{Class, Random};
use std::ffi::{CStr, CString, c_char, c_int};

#[link(name = "mosquitto")]
unsafe extern "C" {
    fn mosquitto_lib_version(major: *mut c_int, minor: *mut c_int, revision: *mut c_int) -> c_int;
    fn mosquitto_topic_matches_sub(sub: *const c_char, topic: *const c_char, result: *mut bool) -> c_int;
    fn mosquitto_sub_topic_check(topic: *const c_char) -> c_int;
    fn mosquitto_pub_topic_check(topic: *const c_char) -> c_int;
}

/// Whether the filter takes the name: 0 no, 1 yes, 9 where libmosquitto refuses to say.
pub fn matches(name: &CStr, filter: &CStr) -> u32 {
    let mut result = false;
    let refused = unsafe { mosquitto_topic_matches_sub(filter.as_ptr(), name.as_ptr(), &mut result) };
    if refused == 0 { result as u32 } else { 9 }
}

/// Whether it calls a filter valid.
fn valid_filter(filter: &CStr) -> bool {
    unsafe { mosquitto_sub_topic_check(filter.as_ptr()) == 0 }
}

/// Whether it calls a name valid.
fn valid_name(name: &CStr) -> bool {
    unsafe { mosquitto_pub_topic_check(name.as_ptr()) == 0 }
}

/// Which valid filters we refuse, and why: the known differences of the pattern test.
const REFUSED: [(&str, fn(&[u8]) -> bool); 3] = [
    ("empty", |filter| filter.is_empty()),
    ("longer than 64 bytes", |filter| filter.len() > 64),
    ("of more than three +", |filter| filter.iter().filter(|&&byte| byte == b'+').count() > 3),
];

/// Whether both define what this filter takes.
fn defined(filter: &CStr) -> bool {
    valid_filter(filter) && !REFUSED.iter().any(|(_, refuses)| refuses(filter.to_bytes()))
}

/// Whether 4.7.2 alone keeps the name from the filter: a filter that begins with a wildcard takes no name that begins with
/// a dollar sign, and takes this one with a letter in its place.
fn kept_apart(name: &CStr, filter: &CStr) -> bool {
    let (name, first) = (name.to_bytes(), filter.to_bytes()[0]);
    name[0] == b'$' && matches!(first, b'+' | b'#') && {
        let letter = CString::new([b"d", &name[1..]].concat()).expect("a name has no zero byte");
        matches(&letter, filter) == 1
    }
}

/// Every comparison with libmosquitto, whose version is printed.
pub fn compare(classes: &mut Vec<Class>, seeds: [u64; 2]) {
    let (mut major, mut minor, mut revision) = (0, 0, 0);
    unsafe { mosquitto_lib_version(&mut major, &mut minor, &mut revision) };
    println!("libmosquitto: {major}.{minor}.{revision}");
    tests(classes, &strings(seeds));
    all_matching(classes, SIGNS, 6);
    all_matching(classes, b"/#+$", 8);
    for seed in seeds {
        random_matching(classes, seed);
    }
}

/// What both can be asked about, as C has it: no string with a zero byte.
fn texts(strings: Vec<Vec<u8>>) -> impl Iterator<Item = CString> {
    strings.into_iter().filter_map(|string| CString::new(string).ok())
}

/// Short strings, random filters around every length, and the longest that MQTT has.
fn strings(seeds: [u64; 2]) -> Vec<CString> {
    let mut all = [short(SIGNS, 6), short(b"/#+a", 8), vec![vec![b'a'; 65_535]]].concat();
    for mut random in seeds.map(Random) {
        for len in LENGTHS {
            all.extend((0..5000).map(|_| pattern(&mut random, len)));
        }
    }
    texts(all).collect()
}

/// The tests of a filter and of a name. Ours of wildcards alone knows no limit but the empty filter.
fn tests(classes: &mut Vec<Class>, strings: &[CString]) {
    let mut filters = Class::new("pattern_refusal and libmosquitto");
    let mut wildcards = Class::new("validate_mqtt_wildcard and libmosquitto");
    let mut names = Class::new("invalid_publish_char and libmosquitto");
    let mut refused = REFUSED.map(|_| 0);
    for text in strings {
        let string = text.to_bytes();
        let valid = valid_filter(text);
        let known = REFUSED.map(|(_, refuses)| refuses(string));
        filters.same(&[string], hub::pattern_refusal(string), if defined(text) { 0 } else { 9 });
        wildcards.same(&[string], hub::validate_mqtt_wildcard(string), valid && !string.is_empty());
        names.same(&[string], hub::contains_invalid_publish_char(string), !valid_name(text));
        for (times, alone) in refused.iter_mut().zip(known) {
            *times += (valid && alone && known.iter().filter(|&&holds| holds).count() == 1) as u64;
        }
    }
    for ((what, _), times) in REFUSED.iter().zip(refused) {
        filters.seen(&format!("known to differ, {what}"), times);
    }
    classes.extend([filters, wildcards, names]);
}

/// Every filter and every name of at most `longest` of the signs.
fn all_matching(classes: &mut Vec<Class>, signs: &[u8], longest: usize) {
    let all: Vec<CString> = texts(short(signs, longest)).collect();
    let names: Vec<&CString> = all.iter().filter(|name| valid_name(name) && !name.is_empty()).collect();
    let mut matching = Matching::new(format!("all to {longest} of {}", signs.escape_ascii()));
    for filter in all.iter().filter(|filter| defined(filter)) {
        for name in &names {
            matching.compare(name, filter);
        }
    }
    classes.push(matching.done());
}

/// Random filters and names, for every two of the lengths.
fn random_matching(classes: &mut Vec<Class>, seed: u64) {
    let mut random = Random(seed);
    let mut matching = Matching::new(format!("random by seed {seed}"));
    for filter_len in LENGTHS {
        for name_len in LENGTHS {
            for _ in 0..3000 {
                let filter = pattern(&mut random, filter_len);
                let name = topic(&mut random, &filter, name_len);
                if let (Ok(filter), Ok(name)) = (CString::new(filter), CString::new(name))
                    && defined(&filter)
                    && valid_name(&name)
                    && !name.is_empty()
                {
                    matching.compare(&name, &filter);
                }
            }
        }
    }
    classes.push(matching.done());
}

/// A comparison of the matchers, with how many names were taken, and how many dollar names were kept apart.
struct Matching {
    class: Class,
    taken: u64,
    kept_apart: u64,
}

impl Matching {
    fn new(what: String) -> Matching {
        Matching { class: Class::new(format!("standard_matches and libmosquitto, {what}")), taken: 0, kept_apart: 0 }
    }

    /// One name and one filter.
    fn compare(&mut self, name: &CStr, filter: &CStr) {
        let input = [name.to_bytes(), filter.to_bytes()];
        let theirs = matches(name, filter);
        self.taken += (theirs == 1) as u64;
        self.kept_apart += kept_apart(name, filter) as u64;
        self.class.same(&input, hub::standard_matches(input[0], input[1]), theirs);
    }

    fn done(mut self) -> Class {
        self.class.seen("match", self.taken);
        self.class.seen("dollar names kept apart", self.kept_apart);
        self.class
    }
}
