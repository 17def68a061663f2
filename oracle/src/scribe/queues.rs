//! Runs of packets, and scripts that bring them between other calls.

use super::{
    Maker, Scribe, add_rule, any_type, arg, connect as connect_alone, publish as publish_alone, remove_bucket,
    remove_tracker, reset, set_storm, spoil, swap_rules,
};
use crate::answers::{PACKETS_MAX, ROOM_MAX, no_call_hands_out};
use crate::drafts::{self, Draft, Part, connect, publish, subscribe, unsubscribe};
use crate::play::QUEUES;
use crate::queued;
use vs_mqtt_monitor::state;

/// The maker of them.
pub const QUEUED: Maker = ("runs of packets", queued, &QUEUES);

/// Bytes after which a run among other calls gets no more packets, since a script has just so many.
const LONG: usize = 300;

/// A few packets, or none.
pub fn queue(scribe: &mut Scribe) {
    let count = scribe.random.pick(&[0, 1, 1, 2, 3, 5, 8]);
    queue_of(scribe, count, LONG);
}

/// As many packets as a line can bring.
fn long_queue(scribe: &mut Scribe) {
    queue_of(scribe, 60, PACKETS_MAX - 400);
}

/// So many packets, seldom with a refused one among them, into a room that some of them fit into, or all.
fn queue_of(scribe: &mut Scribe, count: usize, longest: usize) {
    scribe.step();
    let mut packets = Vec::new();
    for _ in 0..count {
        packets.extend(if scribe.random.one_in(12) { refused(scribe) } else { packet(scribe).bytes() });
        if packets.len() > longest {
            break;
        }
    }
    packets.truncate(PACKETS_MAX);
    let (now, good) = (scribe.now, !scribe.random.one_in(1 + scribe.good));
    let monitor = &scribe.play.original.monitor;
    let mut ends = vec![0, 1, 100, ROOM_MAX];
    if no_call_hands_out(monitor).is_none() {
        let full = queued::run(&mut state::copy(monitor), &packets, (now, good), usize::MAX);
        let all = full.records.len();
        ends.extend(full.messages.iter().map(|(_, _, end)| *end));
        // Mostly room for all, so that the state moves on.
        ends.extend(vec![all; 2 + ends.len()]);
    }
    let room = scribe.random.pick(&ends).saturating_sub(scribe.random.pick(&[0, 0, 0, 1])).min(ROOM_MAX);
    let clock = if good { "ok" } else { "bad" };
    scribe.line(format!("queue {now} {clock} {room} {}", arg(&packets)));
}

/// A packet of what the script's calls are made of.
fn packet(scribe: &mut Scribe) -> Draft {
    let (kind, none): (_, [&[u8]; 2]) = (scribe.random.below(12), [b"", b""]);
    match kind {
        0..6 => {
            let (topic, flags) = (scribe.topic(), scribe.random.pick(&[0, 0, 1, 2, 4, 12]));
            let length = usize::from(scribe.size()).min(scribe.random.pick(&[60, 60, 60, 300]));
            let payload = drafts::bytes(&mut scribe.random, length);
            publish(flags, &topic, 7, &payload)
        }
        6..8 => {
            let client = scribe.any(|scribe| &scribe.clients);
            connect(2, &client, none, none)
        }
        8..11 => {
            let filters: Vec<Vec<u8>> = (0..scribe.random.pick(&[1, 1, 2, 3, 6]))
                .map(|_| if scribe.random.one_in(2) { scribe.topic() } else { scribe.any(|scribe| &scribe.patterns) })
                .collect();
            if kind == 8 {
                return unsubscribe(1, &filters.iter().map(Vec::as_slice).collect::<Vec<_>>());
            }
            let qos = scribe.random.below(3) as u8;
            subscribe(1, &filters.iter().map(|filter| (&filter[..], qos)).collect::<Vec<_>>())
        }
        _ => Draft::new(scribe.random.pick(&[2, 4, 5, 6, 7, 9, 11, 12, 13, 14]) << 4, vec![Part::Plain(vec![0, 1])]),
    }
}

/// A packet that is refused, by each number.
fn refused(scribe: &mut Scribe) -> Vec<u8> {
    match scribe.random.below(3) {
        0 => Draft { off: 1000, ..publish(0, b"a", 0, b"missing") }.bytes(),
        1 => vec![scribe.random.pick(&[0x00, 0xf0]), 0],
        _ => publish(0, &[b'l'; 129], 0, b"").bytes(),
    }
}

/// Runs between all that changes what they meet: rules, settings, single messages, removals, and resets; then of a state
/// that no call hands out.
fn queued(scribe: &mut Scribe) {
    let rate = scribe.random.pick(&[1, 2, 3]);
    scribe.rule(b"#", "allow", "any", rate);
    if scribe.random.one_in(3) {
        scribe.topics = (0..34).map(|i| format!("m/{i}").into_bytes()).collect();
    }
    long_queue(scribe);
    scribe.some_turns(
        25,
        &[
            (12, queue),
            (3, publish_alone),
            (1, connect_alone),
            (1, any_type),
            (1, add_rule),
            (1, swap_rules),
            (1, set_storm),
            (1, remove_bucket),
            (1, remove_tracker),
        ],
    );
    if scribe.random.one_in(4) {
        reset(scribe);
        queue(scribe);
    }
    // Near where the ids begin anew.
    let near = scribe.random.pick(&[0, 1, 2, 5]);
    scribe.line(format!("next_id {}", u64::MAX - near));
    queue(scribe);
    for _ in 0..2 {
        spoil(scribe);
        queue(scribe);
    }
}
