//! Asking where the limit stands, and scripts that ask it wherever it can stand.

use super::{Maker, Scribe, add_rule, arg, publish, remove_bucket, reset, set_record, swap_rules, words};
use crate::play::STANDS;
use vs_mqtt_monitor::state;

/// The maker of them.
pub const STANDING: Maker = ("where the limit stands", standing, &STANDS);

/// A topic to ask about: mostly one that comes, or a new one, one of the longest or just too long, or one that is denied.
fn asked(scribe: &mut Scribe) -> Vec<u8> {
    match scribe.random.below(12) {
        0 => scribe.random.pick(&[&b""[..], b"a/+", b"#", b"a\0b"]).to_vec(),
        1 => vec![b'a'; scribe.random.pick(&[127, 128, 129, 200])],
        2 | 3 => format!("m/new {}", scribe.random.below(1000)).into_bytes(),
        _ => scribe.topic(),
    }
}

pub fn ask_standing(scribe: &mut Scribe) {
    let topic = asked(scribe);
    scribe.line(format!("standing {}", arg(&topic)));
}

/// At this time, or around the time of a bucket's next token or of its end.
pub fn ask_tokens(scribe: &mut Scribe) {
    let topic = asked(scribe);
    let buckets = (0..32).filter_map(|place| state::bucket(&scribe.play.original.monitor, place));
    let mut marks: Vec<u64> = vec![0, scribe.now, scribe.now.saturating_add(1_000_000), u64::MAX];
    for bucket in buckets.filter(|bucket| bucket.capacity > 0) {
        let token = 1_000_000 / u64::from(bucket.capacity);
        marks.extend([token, 2 * token, 300_000_000].map(|wait| bucket.at.saturating_add(wait)));
    }
    let at = scribe.random.pick(&marks).saturating_add(scribe.random.below(3) as u64).saturating_sub(1);
    scribe.line(format!("tokens_left {} {at}", arg(&topic)));
}

/// Tables that are full or nearly, from any time on up to the end of time. What is asked for stands between messages,
/// removals, changed rules, fields set by hand and resets.
fn standing(scribe: &mut Scribe) {
    let last = u64::MAX;
    let starts = [0, 1 << 40, last - 600_000_000, last - 300_000_001, last - 300_000_000, last - 1_000_000, last - 9];
    scribe.now = scribe.random.pick(&starts);
    let rate = scribe.random.pick(&[1, 1, 2, 3, 30, 65_535]);
    scribe.rule(b"no/+", "block", "any", 1);
    scribe.rule(b"free/#", "allow", "only2", 0);
    scribe.rule(b"#", "allow", "any", rate);
    scribe.patterns = words(&["#", "m/+", "m/1"]);
    scribe.rates = vec![0, 1, 2, 3, 65_535];
    let known = scribe.random.pick(&[2, 31, 32, 33, 34]);
    scribe.topics = (0..known).map(|i| format!("m/{i}").into_bytes()).collect();
    let step = scribe.random.pick(&[0, 0, 1, 1000, 333_333]);
    for topic in scribe.topics.clone() {
        scribe.message_of(super::PUBLISH, &topic, 0, b"");
        scribe.now = scribe.now.saturating_add(step);
    }
    scribe.topics.extend(words(&["no/a", "free/a", "m/0", "m/1", ""]));
    scribe.some_turns(
        40,
        &[
            (12, ask_standing),
            (12, ask_tokens),
            (12, publish),
            (2, remove_bucket),
            (1, add_rule),
            (1, swap_rules),
            (1, set_record),
        ],
    );
    if scribe.random.one_in(4) {
        reset(scribe);
        scribe.some_turns(10, &[(1, ask_standing), (1, ask_tokens), (1, publish)]);
    }
}
