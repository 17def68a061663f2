//! record: answers of the Rust original to a fixed list of questions, corners first, one to a line. `oracle/record`
//! writes them to crates/replay/stdin, and crates/replay asks the port the same with no Rust at hand. No question is
//! random: a second run writes the same bytes. In whole traces the original's buckets are those of request C-17.
//!
//! Fields are parted by one blank; bytes are lower case hex, `-` for none; hashes are 8 hex digits each, the most
//! significant first, and the payload hash its 32 bytes in order.
//!   m TOPIC PATTERN 0|1   topic_matches
//!   f BYTES HASH          fnv1a_hash
//!   d BYTES HASH          djb2_hash
//!   s BYTES HASH          suffix_hash
//!   c BYTES HASH HASH     client_hashes
//!   p BYTES HASH          compute_payload_hash
//!   v PATTERN 0|1         validate_mqtt_wildcard
//!   r PATTERN 0|9|36      add_rule's refusal on a fresh monitor; 36 is Rust's own word (`trace::rules`)
//!   b TOPIC 0|1           is_broad_wildcard_subscribe
//!   x TOPIC 0|1           contains_invalid_publish_char
//!   $ TOPIC 0|1           starts_with_dollar
//! Whole traces (`chosen` says which, and why they are enough) have a name, then their text with `;` for each LF, and
//! the answer in the same way with the number, the line and the length that are handed back:
//!   t NAME TEXT ANSWER NUMBER LINE LENGTH              with room enough
//!   h NAME BYTES ANSWER NUMBER LINE LENGTH             the same for a text with bytes that a line cannot have
//!   l NAME SIZE START PART ANSWER NUMBER LINE LENGTH   the same, the text being START and then PART over and over,
//!                                                      SIZE bytes in all
//!   o NAME ROOM TEXT BYTES NUMBER LINE LENGTH          BYTES is all of a room of so many bytes, which was full of
//!                                                      dots; that a short one is refused with 28 is document 01's
//!                                                      word, not the original's, which has no such room

mod chosen;
mod make;
mod met;
mod pairs;
mod scenes;
mod tally;

use chosen::{Chosen, Form};
use make::{BLOCKS, BROKEN, EDGES, LENGTHS, LIKE_NOBODY, among};
use met::Met;
use trace::rules::refusal;
use vs_mqtt_monitor::{client_hashes, opened};
use vs_types_embedded::{compute_payload_hash, fnv1a_hash};

/// Topics and patterns that are asked about in every pair: each wildcard in every position, empty levels, dollar
/// names, and patterns that `add_rule` refuses.
const TOPICS: &[&str] = &["", "a", "/", "a/", "/a", "a/b", "a//b", "a/b/", "a/b/c", "$a", "$a/b", "a+", "a/#"];
const PATTERNS: &[&str] = &[
    "", "a", "/", "#", "+", "/#", "/+", "a/", "a/#", "a/+", "+/", "+/a", "+/b", "+/+", "+/#", "a/b/#", "a/b/+",
    "a/+/c", "a/+/#", "+/b/#", "+/+/+", "+/+/#", "+/+/+/+", "$a/#", "a#", "a+", "+a", "#/a", "a/#/b", "a+/b", "++",
    "##", "+#", "#a",
];

fn main() {
    for text in ["a", "b", "foobar", "\0", "sport/tennis", "a\u{1F}\u{7F}"] {
        hashes(text.as_bytes());
    }
    for len in LENGTHS {
        let bytes: Vec<u8> = (0..len).map(|i| (i * 37 + len) as u8).collect();
        hashes(&bytes);
    }
    for pattern in PATTERNS {
        pattern_tests(pattern.as_bytes());
    }
    for len in [31, 32, 33, 63, 64, 65] {
        pattern_tests(&with_end(len, b""));
        pattern_tests(&with_end(len, b"/#"));
        pattern_tests(&with_end(len, b"/+/+/+"));
        pattern_tests(&with_end(len, b"\0"));
    }
    pattern_tests(&with_end(128, b""));
    for (way, string) in BROKEN.into_iter().chain(EDGES.map(str::as_bytes)).enumerate() {
        pattern_tests(string);
        pattern_tests(&among(string, way));
    }
    for both in [&b"a\0\xff"[..], b"+/+/+/+/\xff", b"a#\xff", &with_end(64, b"\xff"), &with_end(65, b"\xff")] {
        pattern_tests(both);
    }
    for topic in TOPICS.iter().chain(["#", "+", "+/#", "#/", "+/", "+/+", "a\0", "a$"].iter()) {
        topic_tests(topic.as_bytes());
    }
    for topic in TOPICS {
        for pattern in PATTERNS {
            matching(topic.as_bytes(), pattern.as_bytes());
        }
    }
    for (topic, pattern) in [
        ("sport", "sport/#"),
        ("sport/", "sport/+"),
        ("/finance", "+/+"),
        ("sport/a", "sport/+/#"),
        ("sport/a/b", "sport/+"),
    ] {
        matching(topic.as_bytes(), pattern.as_bytes());
    }
    for len in [31, 32, 33, 63, 64, 65, 127, 128] {
        let topic = with_end(len, b"");
        matching(&topic, &topic);
        matching(&topic, &with_end(len, b"b"));
        matching(&topic, &topic[1..]);
        matching(&topic[1..], &topic);
        matching(&topic, b"+");
        matching(&with_end(len, b"/b"), b"+/b");
        matching(&with_end(len, b"/b"), &with_end(len, b"/+"));
        matching(&with_end(len, b"/b"), &with_end(len, b"/#"));
        matching(&topic, &with_end(len + 2, b"/#"));
    }
    for first in BLOCKS {
        for second in BLOCKS {
            hashes(&[&[b'p'; 32][..], &first, &second].concat());
        }
    }
    hashes(LIKE_NOBODY);
    let mut met = Met::default();
    for chosen in chosen::all() {
        whole_trace(&chosen, &mut met);
    }
    for what in met::all() {
        assert!(met.times(what) > 0, "no trace meets: {what}");
    }
}

/// `len` bytes of plain text that end in `end`.
fn with_end(len: usize, end: &[u8]) -> Vec<u8> {
    [&vec![b'a'; len - end.len()], end].concat()
}

fn hex(bytes: &[u8]) -> String {
    if bytes.is_empty() { "-".into() } else { bytes.iter().map(|byte| format!("{byte:02x}")).collect() }
}

fn matching(topic: &[u8], pattern: &[u8]) {
    println!("m {} {} {}", hex(topic), hex(pattern), opened::topic_matches(topic, pattern) as u8);
}

fn hashes(bytes: &[u8]) {
    let text = hex(bytes);
    println!("f {text} {:08x}", fnv1a_hash(bytes));
    println!("d {text} {:08x}", opened::djb2_hash(bytes));
    println!("s {text} {:08x}", opened::suffix_hash(bytes));
    let (hash, hash2) = client_hashes(bytes);
    println!("c {text} {hash:08x} {hash2:08x}");
    println!("p {text} {}", hex(&compute_payload_hash(bytes).0));
}

fn pattern_tests(pattern: &[u8]) {
    let text = hex(pattern);
    println!("v {text} {}", opened::validate_mqtt_wildcard(pattern) as u8);
    println!("r {text} {}", refusal(pattern));
}

fn topic_tests(topic: &[u8]) {
    let text = hex(topic);
    println!("b {text} {}", opened::is_broad_wildcard_subscribe(topic) as u8);
    println!("x {text} {}", opened::contains_invalid_publish_char(topic) as u8);
    println!("$ {text} {}", opened::starts_with_dollar(topic) as u8);
}

/// One trace, which must meet what it is there for.
fn whole_trace(chosen: &Chosen, met: &mut Met) {
    let before: Vec<u64> = chosen.must.iter().map(|what| met.times(what)).collect();
    let name = &chosen.name;
    match &chosen.form {
        Form::Text(text) => {
            let (kind, text, answer) = match spelled(text) {
                Some(line) => ('t', line, answer(text, None, met)),
                None => ('h', hex(text), answer(text, None, met)),
            };
            println!("{kind} {name} {text} {answer}");
        }
        Form::Room(room, text) => {
            println!("o {name} {room} {} {}", plain(text), answer(text, Some(*room), met));
        }
        Form::Long(size, start, part) => {
            let text: Vec<u8> = start.iter().chain(part.iter().cycle()).take(*size).copied().collect();
            println!("l {name} {size} {} {} {}", plain(start), plain(part), answer(&text, None, met));
        }
    }
    for (what, before) in chosen.must.iter().zip(before) {
        assert!(met.times(what) > before, "{name} does not meet: {what}");
    }
}

/// A text on one line, if that can be.
fn spelled(text: &[u8]) -> Option<String> {
    let fits = |&byte: &u8| byte == b'\n' || (byte.is_ascii_graphic() && byte != b';');
    let line = || String::from_utf8_lossy(text).replace('\n', ";");
    match text {
        b"" => Some("-".into()),
        b"-" => None,
        _ => text.iter().all(fits).then(line),
    }
}

/// The same for a text that must be one.
fn plain(text: &[u8]) -> String {
    spelled(text).expect("a text that fits a line")
}

/// What the original says to a trace, and how it ended, with a room of so many bytes or with all that it takes.
fn answer(text: &[u8], room: Option<usize>, met: &mut Met) -> String {
    let (end, mut out) = met.expected(text);
    let room = room.unwrap_or(out.len());
    if room < out.len() {
        met.count("end 28", 1);
        return format!("{} 28 0 0", ".".repeat(room));
    }
    let length = out.len();
    out.resize(room, b'.');
    format!("{} {} {} {length}", plain(&out), end.number, end.line)
}
