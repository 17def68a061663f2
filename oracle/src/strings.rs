//! The test of UTF-8 against Rust's own, `core::str::from_utf8`, which nobody here wrote: on whole spaces of short strings,
//! and on random ones that are right or damaged in one byte. The number of a pattern is compared on the same strings.

use crate::hub;
use crate::make::{BROKEN, EDGES, among, short};
use crate::standard_answer;
use crate::tally::{Class, Random};
use trace::rules::refusal;
use vs_mqtt_monitor::opened;

/// The first and the last byte of each class that well formed UTF-8 tells apart, a letter, and the signs of patterns.
const BOUNDARIES: &[u8] = b"\x00\x01\x7f\x80\x8f\x90\x9f\xa0\xbf\xc0\xc1\xc2\xdf\xe0\xe1\xec\xed\xee\xef\xf0\xf1\xf3\xf4\xf5\xf7\xf8\xfb\xfc\xfd\xfe\xff/+#a";

/// Every comparison of the two tests.
pub fn compare(classes: &mut Vec<Class>, seeds: [u64; 2]) {
    let every_byte: Vec<u8> = (0..=255).collect();
    of_all(classes, "all strings to 2 bytes", short(&every_byte, 2).into_iter());
    let mut class = Class::new("is_utf8, all strings of 3 bytes");
    let mut passed = 0;
    for number in 0..1u32 << 24 {
        passed += one(&mut class, &number.to_be_bytes()[1..]) as u64;
    }
    class.seen("pass", passed);
    classes.push(class);
    let longest = short(BOUNDARIES, 4).into_iter().filter(|string| string.len() == 4);
    of_all(classes, "all 4 bytes of the edges of each class", longest);
    let scalars = (0..=0x10ffff).filter_map(char::from_u32).map(|scalar| scalar.to_string().into_bytes());
    of_all(classes, "each scalar value", scalars);
    for seed in seeds {
        let mut random = Random(seed);
        let strings: Vec<Vec<u8>> = (0..300_000).flat_map(|_| right_and_damaged(&mut random)).collect();
        of_all(classes, &format!("random by seed {seed}, right and with a byte damaged"), strings.into_iter());
    }
}

/// Both matchers on patterns and names that are no UTF-8, or that have characters of many bytes.
pub fn matching(classes: &mut Vec<Class>) {
    let mut port = Class::new("topic_matches, strings of any bytes");
    let mut wide = Class::new("standard_matches, strings of any bytes");
    let odd = BROKEN.into_iter().chain(EDGES.map(str::as_bytes));
    let strings: Vec<Vec<u8>> = odd.flat_map(|string| (0..5).map(|way| among(string, way))).collect();
    let (mut outside, mut matched) = (0, 0);
    for pattern in &strings {
        let refused = refusal(pattern);
        for name in &strings {
            let input: [&[u8]; 2] = [name, pattern];
            port.same(&input, hub::topic_matches(name, pattern), opened::topic_matches(name, pattern));
            let expected = standard_answer(name, pattern, refused);
            outside += (expected == 9) as u64;
            matched += (expected == 1) as u64;
            wide.same(&input, hub::standard_matches(name, pattern), expected);
        }
    }
    wide.seen("outside its domain", outside);
    wide.seen("match", matched);
    classes.extend([port, wide]);
}

/// One string; whether it passes.
fn one(class: &mut Class, string: &[u8]) -> bool {
    let right = std::str::from_utf8(string).is_ok();
    class.same(&[string], hub::is_utf8(string), right);
    right
}

/// The test, and the number of a pattern, on each string.
fn of_all(classes: &mut Vec<Class>, what: &str, strings: impl Iterator<Item = Vec<u8>>) {
    let mut test = Class::new(format!("is_utf8, {what}"));
    let mut numbers = Class::new(format!("pattern_refusal, {what}"));
    let (mut passed, mut refused) = (0, 0);
    for string in strings {
        passed += one(&mut test, &string) as u64;
        let number = refusal(&string);
        refused += (number == 36) as u64;
        numbers.same(&[&string], hub::pattern_refusal(&string), number);
    }
    test.seen("pass", passed);
    if what != "each scalar value" {
        numbers.seen("refused with 36", refused);
    }
    classes.extend([test, numbers]);
}

/// Characters of every length in bytes, 64 bytes of them at most.
fn right(random: &mut Random) -> Vec<u8> {
    let most = 1 + random.below(64);
    let mut string = String::new();
    loop {
        let bits = random.pick(&[5, 7, 9, 11, 14, 16, 17, 21]);
        let edge = random.pick(&EDGES).chars().next();
        let any = char::from_u32((random.next() % (1 << bits)) as u32);
        let next = if random.one_in(4) { edge } else { any };
        let Some(next) = next else { continue };
        if string.len() + next.len_utf8() > most {
            return string.into_bytes();
        }
        string.push(next);
    }
}

/// A string that is right, and the same with one byte changed, lost or put in, or cut off at the end.
fn right_and_damaged(random: &mut Random) -> [Vec<u8>; 2] {
    let right = right(random);
    let mut damaged = right.clone();
    let place = random.below(right.len() + 1);
    let byte = if random.one_in(2) { random.pick(BOUNDARIES) } else { random.next() as u8 };
    match random.below(4) {
        0 if place < right.len() => damaged[place] = byte,
        1 if place < right.len() => {
            damaged.remove(place);
        }
        2 => damaged.insert(place, byte),
        _ => damaged.truncate(place),
    }
    [right, damaged]
}
