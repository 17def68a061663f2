//! compare [--seed N]: matching and hashes of the archive against the Rust original, answer by answer. Short inputs
//! are tried exhaustively, others around every length that the monitor knows, by two seeds. The standard matcher has
//! no original: it is held to a matcher written here from MQTT 3.1.1 section 4.7, level by level, and to libmosquitto.
//! Nor has the test of UTF-8, which is held to that of Rust's own library.

mod hub;
mod make;
mod mosquitto;
mod strings;
mod tally;

use hub::HubClientHashes;
use make::{BLOCKS, LENGTHS, LIKE_NOBODY, SIGNS, pattern, short, topic};
use std::fmt::Debug;
use tally::{Class, Random};
use trace::rules::refusal;
use vs_mqtt_monitor::{client_hashes, opened};

fn main() {
    let words: Vec<String> = std::env::args().skip(1).collect();
    let seeds = tally::seeds(&words);
    let mut classes = Vec::new();
    matching(&mut classes, "topics and patterns to 5 of six signs", &short(SIGNS, 5));
    matching(&mut classes, "topics and patterns to 6 of /#+a", &short(b"/#+a", 6));
    for seed in seeds {
        random_matching(&mut classes, seed);
    }
    collisions(&mut classes);
    mosquitto::compare(&mut classes, seeds);
    strings::compare(&mut classes, seeds);
    strings::matching(&mut classes);

    let mut single = Single { inputs: inputs(seeds), classes };
    single.compare("fnv1a_hash", hub::fnv1a_hash, vs_types_embedded::fnv1a_hash);
    single.compare("djb2_hash", hub::djb2_hash, opened::djb2_hash);
    single.compare("suffix_hash", hub::suffix_hash, opened::suffix_hash);
    single.compare("client_hashes", hub::client_hashes, rust_client_hashes);
    single.compare("compute_payload_hash", hub_payload_hash, rust_payload_hash);
    single.compare("pattern_refusal", hub::pattern_refusal, refusal);
    single.compare("validate_mqtt_wildcard", hub::validate_mqtt_wildcard, opened::validate_mqtt_wildcard);
    single.compare("is_broad_wildcard", hub::is_broad_wildcard_subscribe, opened::is_broad_wildcard_subscribe);
    single.compare("starts_with_dollar", hub::starts_with_dollar, opened::starts_with_dollar);
    single.compare("invalid_publish_char", hub::contains_invalid_publish_char, opened::contains_invalid_publish_char);

    if !tally::report(&single.classes) {
        std::process::exit(1);
    }
}

/// Matching of section 4.7 on a valid pattern: `+` takes one level, also an empty one, `#` this level and all after
/// it, also none; any other level takes an equal one. A pattern that begins with a wildcard takes no name that begins with
/// a dollar sign (4.7.2).
fn standard(name: &[u8], pattern: &[u8]) -> bool {
    if name.starts_with(b"$") && matches!(pattern[0], b'+' | b'#') {
        return false;
    }
    let mut levels = name.split(|&byte| byte == b'/');
    for wanted in pattern.split(|&byte| byte == b'/') {
        if wanted == b"#" {
            return true;
        }
        match levels.next() {
            Some(level) if wanted == b"+" || wanted == level => {}
            _ => return false,
        }
    }
    levels.next().is_none()
}

/// `standard` inside its domain, 9 outside; `refused` is the pattern's `refusal`.
fn standard_answer(name: &[u8], pattern: &[u8], refused: u32) -> u32 {
    if name.is_empty() || refused != 0 { 9 } else { standard(name, pattern) as u32 }
}

/// Both matchers on every pair of `strings`.
fn matching(classes: &mut Vec<Class>, name: &str, strings: &[Vec<u8>]) {
    let mut port = Class::new(format!("topic_matches, all {name}"));
    let mut wide = Class::new(format!("standard_matches, all {name}"));
    for pattern in strings {
        let refused = refusal(pattern);
        for topic in strings {
            let input: [&[u8]; 2] = [topic, pattern];
            port.same(&input, hub::topic_matches(topic, pattern), opened::topic_matches(topic, pattern));
            wide.same(&input, hub::standard_matches(topic, pattern), standard_answer(topic, pattern, refused));
        }
    }
    classes.extend([port, wide]);
}

/// Both matchers on random pairs, for every two of the lengths; half of the topics are made from their pattern.
fn random_matching(classes: &mut Vec<Class>, seed: u64) {
    let mut random = Random(seed);
    let mut port = Class::new(format!("topic_matches, random by seed {seed}"));
    let mut wide = Class::new(format!("standard_matches, random by seed {seed}"));
    let (mut matched, mut standard_matched, mut refused) = (0, 0, 0);
    for pattern_len in LENGTHS {
        for topic_len in LENGTHS {
            for _ in 0..3000 {
                let pattern = pattern(&mut random, pattern_len);
                let topic = topic(&mut random, &pattern, topic_len);
                let input: [&[u8]; 2] = [&topic, &pattern];
                let expected = opened::topic_matches(&topic, &pattern);
                matched += expected as u64;
                port.same(&input, hub::topic_matches(&topic, &pattern), expected);
                let expected = standard_answer(&topic, &pattern, refusal(&pattern));
                standard_matched += (expected == 1) as u64;
                refused += (expected == 9) as u64;
                wide.same(&input, hub::standard_matches(&topic, &pattern), expected);
            }
        }
    }
    port.seen("match", matched);
    wide.seen("match", standard_matched);
    wide.seen("outside its domain", refused);
    classes.extend([port, wide]);
}

/// Functions of one byte string, each compared on every set of inputs.
struct Single {
    inputs: Vec<(String, Vec<Vec<u8>>)>,
    classes: Vec<Class>,
}

impl Single {
    fn compare<T: PartialEq + Debug>(&mut self, name: &str, hub: fn(&[u8]) -> T, rust: fn(&[u8]) -> T) {
        for (set, strings) in &self.inputs {
            let mut class = Class::new(format!("{name}, {set}"));
            for string in strings {
                class.same(&[string], hub(string), rust(string));
            }
            self.classes.push(class);
        }
    }
}

/// The sets of inputs, each with its name.
fn inputs(seeds: [u64; 2]) -> Vec<(String, Vec<Vec<u8>>)> {
    let every_byte: Vec<u8> = (0..=255).collect();
    let mut all_short = short(b"/#+$ab\0", 6);
    all_short.extend(short(b"/+a", 9));
    all_short.extend(short(&every_byte, 2));
    let mut sets = vec![("all short inputs".to_string(), all_short)];
    for seed in seeds {
        let mut random = Random(seed);
        let mut set = Vec::new();
        for len in (0..=600).chain([65_535, 65_536, 65_537]) {
            set.push(vec![0; len]);
            set.push(vec![0xff; len]);
            set.push((0..len).map(|i| i as u8).collect());
            set.extend((0..4).map(|_| random.bytes(len, &every_byte)));
        }
        for len in LENGTHS {
            set.extend((0..5000).map(|_| pattern(&mut random, len)));
        }
        sets.push((format!("lengths 0 to 600 and patterns by seed {seed}"), set));
    }
    sets
}

fn rust_client_hashes(client_id: &[u8]) -> HubClientHashes {
    let (hash, hash2) = client_hashes(client_id);
    HubClientHashes { hash, hash2 }
}

/// The payload hash, and whether the bytes around it were left as they were.
fn hub_payload_hash(data: &[u8]) -> (bool, [u8; 32]) {
    let mut room = [[0xa5; 32]; 3];
    hub::compute_payload_hash(data, &mut room[1]);
    (room[0] == [0xa5; 32] && room[2] == [0xa5; 32], room[1])
}

fn rust_payload_hash(data: &[u8]) -> (bool, [u8; 32]) {
    (true, vs_types_embedded::compute_payload_hash(data).0)
}

/// Topics above 32 bytes that share prefix, length, djb2 and suffix hash, and not FNV-1a; and a client id with the
/// hashes of none.
fn collisions(classes: &mut Vec<Class>) {
    let mut class = Class::new("topics of colliding blocks");
    let prefix = [b'p'; 32];
    let first = [&prefix[..], &BLOCKS[0].repeat(4)].concat();
    let mut apart = 0;
    for choice in 0..81 {
        let mut topic = prefix.to_vec();
        for place in 0..4 {
            topic.extend(BLOCKS[choice / 3usize.pow(place) % 3]);
        }
        for (hub, rust) in [
            (hub::djb2_hash(&topic), opened::djb2_hash(&first)),
            (hub::suffix_hash(&topic), opened::suffix_hash(&first)),
            (hub::fnv1a_hash(&topic), vs_types_embedded::fnv1a_hash(&topic)),
        ] {
            class.same(&[&topic], hub, rust);
        }
        apart += (hub::fnv1a_hash(&topic) != hub::fnv1a_hash(&first)) as u64;
    }
    class.same(&[LIKE_NOBODY], hub::client_hashes(LIKE_NOBODY), rust_client_hashes(b""));
    class.seen("told apart by FNV-1a", apart);
    classes.push(class);
}
