//! benchstack FILE..: the deepest stack of every export of the archives, for bin/measure and include/hub.h. The files
//! are traces; what the other calls are given is made here.

mod checks;
mod drafts;
mod hub;
mod make;
mod measured;
mod mqtt;
mod stack;
mod tally;

use drafts::Draft;
use hub::HubTrace;
use std::hint::black_box;

/// Room for any answer.
const ENOUGH: usize = 786_432;

/// One row; the least depth that is told from less is that of a call that does nothing.
fn row(name: &str, call: impl FnMut() + Send) {
    println!("| {name} | {} |", stack::depth(call));
}

fn main() {
    let traces: Vec<Vec<u8>> =
        std::env::args().skip(1).flat_map(|file| variants(&std::fs::read(file).unwrap())).collect();
    let strings = strings();
    println!("| Call | Deepest stack, bytes |\n|---|---|");
    row("nothing", || ());
    let each = |call: fn(&[u8])| strings.iter().for_each(|string| call(black_box(string)));
    row("hub_fnv1a_hash", || each(|data| _ = black_box(hub::fnv1a_hash(data))));
    row("hub_djb2_hash", || each(|data| _ = black_box(hub::djb2_hash(data))));
    row("hub_suffix_hash", || each(|topic| _ = black_box(hub::suffix_hash(topic))));
    row("hub_client_hashes", || each(|client| _ = black_box(hub::client_hashes(client))));
    row("hub_compute_payload_hash", || each(|data| hub::compute_payload_hash(data, black_box(&mut [0; 32]))));
    row("hub_validate_mqtt_wildcard", || each(|pattern| _ = black_box(hub::validate_mqtt_wildcard(pattern))));
    row("hub_is_utf8", || each(|pattern| _ = black_box(hub::is_utf8(pattern))));
    row("hub_pattern_refusal", || each(|pattern| _ = black_box(hub::pattern_refusal(pattern))));
    row("hub_is_broad_wildcard_subscribe", || each(|topic| _ = black_box(hub::is_broad_wildcard_subscribe(topic))));
    row("hub_starts_with_dollar", || each(|topic| _ = black_box(hub::starts_with_dollar(topic))));
    row("hub_contains_invalid_publish_char", || each(|topic| _ = black_box(hub::contains_invalid_publish_char(topic))));
    let pairs = |call: fn(&[u8], &[u8])| strings.iter().for_each(|a| strings.iter().for_each(|b| call(a, b)));
    row("hub_topic_matches", || pairs(|topic, pattern| _ = black_box(hub::topic_matches(topic, pattern))));
    row("hub_standard_matches", || pairs(|name, pattern| _ = black_box(hub::standard_matches(name, pattern))));
    row("hub_covers", || pairs(|earlier, later| _ = black_box(hub::covers(earlier, later, true))));
    row("hub_witness", || pairs(|earlier, later| _ = black_box(hub::witness(earlier, later, true))));
    trace_rows("hub_trace", hub::trace, hub::trace_length, &traces);
    trace_rows("hub_trace_standard", hub::trace_standard, hub::trace_standard_length, &traces);
    let mut room = vec![0; ENOUGH];
    let settings: Vec<Vec<u8>> = [1, 32].into_iter().flat_map(|rules| variants(&settings(rules))).collect();
    row("hub_settings", || {
        for text in &settings {
            black_box([0, text.len() / 2, ENOUGH].map(|long| hub::settings(text, 1, &mut room[..long])));
        }
    });
    let packets: Vec<Vec<u8>> = packets().iter().flat_map(|packet| variants(packet)).collect();
    row("hub_packet", || packets.iter().for_each(|bytes| _ = black_box(hub::packet(bytes, 0))));
    let mut rooms = Vec::new();
    for bytes in &packets {
        let length = hub::packet_lines(bytes, 0, u64::MAX, false, &mut room).length;
        rooms.extend([0, length / 2, length, ENOUGH].map(|long| (bytes, long)));
    }
    row("hub_packet_lines", || {
        for (bytes, long) in &rooms {
            black_box(hub::packet_lines(bytes, 0, u64::MAX, false, &mut room[..*long]));
        }
    });
    let runs = runs(&packets);
    row("hub_queue", || {
        let opening = b"default=block\nrules=0\n";
        traces.iter().for_each(|text| _ = black_box(hub::queue(text, u64::MAX, false, &runs[0], &mut room)));
        for bytes in &runs {
            let length = hub::queue(opening, u64::MAX, false, bytes, &mut room).length;
            let mut call = |long: usize| _ = black_box(hub::queue(opening, 0, true, bytes, &mut room[..long]));
            [0, length / 2, length].into_iter().for_each(&mut call);
        }
    });
    row("hub_standing", || traces.iter().for_each(|text| _ = hub::standing(text, &mut room)));
    row("hub_standing_standard", || traces.iter().for_each(|text| _ = hub::standing_standard(text, &mut room)));
}

/// The rows of a matcher's two calls.
fn trace_rows(
    name: &str,
    trace: fn(&[u8], &mut [u8]) -> HubTrace,
    trace_length: fn(&[u8]) -> HubTrace,
    traces: &[Vec<u8>],
) {
    let mut room = vec![0; ENOUGH];
    row(&format!("{name}, room for any answer"), || traces.iter().for_each(|text| _ = trace(text, &mut room)));
    row(&format!("{name}, less room"), || {
        for text in traces {
            let length = trace_length(text).length;
            black_box([trace(text, &mut room[..length]), trace(text, &mut room[..length - 1])]);
        }
    });
    row(&format!("{name}_length"), || traces.iter().for_each(|text| _ = black_box(trace_length(text))));
}

/// Patterns of every kind, and long strings of levels with and without wildcards.
fn strings() -> Vec<Vec<u8>> {
    let mut all: Vec<Vec<u8>> = [&b""[..], b"#", b"+", b"+/#", b"+/+/+/#", b"a/+/b/#", b"a#", b"$SYS/#", b"a\0b", b"/"]
        .iter()
        .map(|pattern| pattern.to_vec())
        .collect();
    for long in [1, 31, 32, 33, 63, 64, 65, 128, 256, 65_536] {
        for level in [&b"level/"[..], b"+/", b"/", b"a"] {
            all.push(level.iter().copied().cycle().take(long).collect());
        }
    }
    all
}

/// A settings text with so many rules, each value at its longest.
fn settings(rules: u8) -> Vec<u8> {
    let mut text = format!("form=1\ndefault=block\nthreshold=16\nwindow=600000000\nrules={rules}\n");
    for letter in (b'0'..).take(rules.into()) {
        text += &format!("pattern={}\naction=allow\nqos=only2\nrate=65535\n", format!("{letter:02x}").repeat(64));
    }
    text.into_bytes()
}

/// Packets of every shape, short ones and those that are counted.
fn packets() -> Vec<Vec<u8>> {
    let counted = measured::packets().into_iter().map(|(_, bytes)| bytes);
    drafts::examples().iter().map(Draft::bytes).chain(counted).collect()
}

/// Runs of packets: every shape one behind the other, as a whole and with what can go wrong with it; and each alone.
fn runs(alone: &[Vec<u8>]) -> Vec<Vec<u8>> {
    let whole = packets().concat();
    variants(&whole).into_iter().chain(alone.iter().cloned()).collect()
}

/// A text, and what can go wrong with it: an end in many places, a bad byte in many places, too many bytes.
fn variants(text: &[u8]) -> Vec<Vec<u8>> {
    let mut all = vec![text.to_vec(), [text, &[b'\n'; 65_537]].concat()];
    for place in (0..text.len()).step_by(1 + text.len() / 40) {
        all.push(text[..place].to_vec());
        all.push([&text[..place], b"~", &text[place + 1..]].concat());
    }
    all
}
