//! Patterns and topics that several programs ask about, and random ones.

use crate::tally::Random;

/// The bytes that matching tells apart: each of its signs, and two that it does not know.
pub const SIGNS: &[u8] = b"/#+$ab";

/// Lengths around which something changes: none, one, the prefix, the pattern, the topic, the payload.
pub const LENGTHS: [usize; 14] = [0, 1, 31, 32, 33, 63, 64, 65, 127, 128, 129, 255, 256, 257];

/// Two-byte blocks that move djb2 alike.
pub const BLOCKS: [[u8; 2]; 3] = [*b"Ez", *b"FY", *b"G8"];

/// A client id whose two hashes are 0, as those of an empty one: blocks found from both ends of FNV-1a, and seven
/// letters that bring djb2 to 0.
pub const LIKE_NOBODY: &[u8] = b"FYFYEzG8FYEzEzG8EzG8G8G8EzG8G8G8G8G8EzG8G8EzCaDGLKK";

/// Strings that are no UTF-8: a byte out of place, a character cut off, a number with more bytes than it needs, a
/// surrogate, a number above 10FFFF.
pub const BROKEN: [&[u8]; 23] = [
    b"\x80",
    b"\xbf",
    b"\xff",
    b"\xfe",
    b"\xf8\x88\x80\x80\x80",
    b"\xc3",
    b"\xc3/",
    b"\xe2\x82",
    b"\xe2\x82/",
    b"\xf0\x9f\x98",
    b"\xf0\x9f\x98/",
    b"\xc0\x80",
    b"\xc0\xaf",
    b"\xc1\xbf",
    b"\xe0\x80\xaf",
    b"\xe0\x9f\xbf",
    b"\xf0\x80\x80\xaf",
    b"\xf0\x8f\xbf\xbf",
    b"\xed\xa0\x80",
    b"\xed\xbf\xbf",
    b"\xf4\x90\x80\x80",
    b"\xf5\x80\x80\x80",
    b"\xf7\xbf\xbf\xbf",
];

/// Characters before and behind each edge of UTF-8, and some that MQTT only advises against.
pub const EDGES: [&str; 12] = [
    "\u{1}",
    "\u{7f}",
    "\u{80}",
    "\u{7ff}",
    "\u{800}",
    "\u{d7ff}",
    "\u{e000}",
    "\u{feff}",
    "\u{ffff}",
    "\u{10000}",
    "\u{1f52d}",
    "\u{10ffff}",
];

/// A string in a pattern: alone, first, last, before or behind a wildcard.
pub fn among(string: &[u8], way: usize) -> Vec<u8> {
    let (before, behind): (&[u8], &[u8]) =
        [(&b""[..], &b""[..]), (b"", b"a/+"), (b"a/", b""), (b"+/", b"/#"), (b"a/b", b"c/+/d")][way % 5];
    [before, string, behind].concat()
}

/// Every string over `signs` of at most `longest` bytes, the short ones first.
pub fn short(signs: &[u8], longest: usize) -> Vec<Vec<u8>> {
    let mut all = vec![vec![]];
    let mut last = all.clone();
    for _ in 0..longest {
        last = last.iter().flat_map(|start| signs.iter().map(|&sign| [&start[..], &[sign]].concat())).collect();
        all.extend_from_slice(&last);
    }
    all
}

/// A pattern of `len` bytes: plain levels, mostly with wildcards put in their proper places, sometimes spoilt.
pub fn pattern(random: &mut Random, len: usize) -> Vec<u8> {
    let mut pattern = random.bytes(len, b"ab/$abab");
    if len == 0 {
        return pattern;
    }
    for _ in 0..random.below(5) {
        let at = random.below(len);
        if at > 0 {
            pattern[at - 1] = b'/';
        }
        if at + 1 < len {
            pattern[at + 1] = b'/';
        }
        pattern[at] = b'+';
    }
    if random.one_in(2) {
        pattern[len - 1] = b'#';
        if len > 1 {
            pattern[len - 2] = b'/';
        }
    }
    if random.one_in(8) {
        pattern[random.below(len)] = random.pick(b"/#+$a\0");
    }
    pattern
}

/// A topic of `len` bytes: half of them random, half the pattern with its wildcards filled in, stretched or cut to
/// the length, sometimes spoilt.
pub fn topic(random: &mut Random, pattern: &[u8], len: usize) -> Vec<u8> {
    if random.one_in(2) {
        return random.bytes(len, SIGNS);
    }
    let mut topic = Vec::new();
    let mut stretch = 0;
    for &byte in pattern {
        match byte {
            b'+' => {
                stretch = topic.len();
                let level = random.below(3);
                topic.extend(random.bytes(level, b"ab$"));
            }
            b'#' => stretch = topic.len(),
            _ => topic.push(byte),
        }
    }
    while topic.len() < len {
        topic.insert(stretch, b'a');
    }
    topic.truncate(len);
    if len > 0 && random.one_in(8) {
        topic[random.below(len)] = random.pick(b"/#+$b");
    }
    topic
}
