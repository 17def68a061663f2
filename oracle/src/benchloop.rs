//! benchloop: inspections in a loop that owns the state, with no text around them, by the archive of `loops` and by the
//! Rust original with buckets of request C-17 (oracle/opened/kept.rs), for bin/measure. Both get the same topics, size
//! and rules (crates/loops/src/inspections.rt), and must allow the same number of messages.
//!   benchloop count                          each cell for two lengths, by either side
//!   benchloop stack                          the deepest stack of either side, its start included
//!   benchloop hub|rust RULES TOPICS COUNT    one loop, for callgrind by function or gdb

mod rows;
mod stack;

use rows::row;
use std::hint::black_box;
use vs_mqtt_monitor::{MqttMonitor, QosPolicy, TopicAction};
use vs_types_embedded::{MqttMessage, MqttPacketType, MqttQoS};

/// Rules and live topics.
const CELLS: [(u32, u8); 6] = [(1, 1), (1, 32), (1, 64), (32, 1), (32, 32), (32, 64)];
/// Messages of the two lengths: the difference leaves out the start.
const LENGTHS: [u32; 2] = [1_000, 3_000];
/// Bytes of each topic.
const WIDTH: u8 = 17;
/// The size that each message claims.
const SIZE: u16 = 20;

mod raw {
    #[rustfmt::skip]
    unsafe extern "C" {
        pub fn hub_loop(rules: u32, topics: *const u8, topics_len: usize, width: u8, size: u16, messages: u32) -> u64;
        pub safe fn hub_loop_rules(rules: u32) -> u16;
    }
}

/// So many messages on the topics in turn; how many were allowed.
#[inline]
fn hub_loop(rules: u32, topics: &[u8], messages: u32) -> u64 {
    unsafe { raw::hub_loop(rules, topics.as_ptr(), topics.len(), WIDTH, SIZE, messages) }
}

/// The same in the original; each topic has its message at hand.
#[unsafe(no_mangle)]
#[inline(never)]
fn rust_loop(rules: u32, ready: &mut [MqttMessage], messages: u32) -> u64 {
    let mut monitor = MqttMonitor::new_deny_default();
    let policy = QosPolicy::MinQoS(MqttQoS::AtLeastOnce);
    let mut pattern = *b"site/+/room-0/#";
    for other in 0..rules - 1 {
        pattern[12] = b'0' + other as u8;
        monitor.add_rule(&pattern, TopicAction::Allow, policy, 65_535).unwrap();
    }
    monitor.add_rule(b"site/+/lamp/+", TopicAction::Allow, policy, 65_535).unwrap();
    let (mut allowed, mut next) = (0, 0);
    for number in 0..messages {
        let message = &mut ready[next];
        message.timestamp_us = u64::from(number) * 10_000;
        allowed += u64::from(monitor.inspect(message).allowed);
        next = if next + 1 == ready.len() { 0 } else { next + 1 };
    }
    allowed
}

/// So many topics, one after the other.
fn topics(count: u8) -> Vec<u8> {
    (0..count).flat_map(|k| [b"site/north/lamp/".as_slice(), &[b'0' + k]].concat()).collect()
}

/// Their messages, as the original takes them.
fn ready(topics: &[u8]) -> Vec<MqttMessage> {
    let message = |topic: &[u8]| {
        let mut message = MqttMessage {
            packet_type: MqttPacketType::Publish,
            topic_len: WIDTH,
            qos: MqttQoS::AtLeastOnce,
            payload_len: SIZE,
            payload_inspectable_len: 2,
            ..MqttMessage::default()
        };
        message.topic[..WIDTH.into()].copy_from_slice(topic);
        message.payload[..2].copy_from_slice(b"on");
        message
    };
    topics.chunks_exact(WIDTH.into()).map(message).collect()
}

fn main() {
    let words: Vec<String> = std::env::args().skip(1).collect();
    let number = |place: usize| words[place].parse::<u32>().expect("a number");
    match words[0].as_str() {
        "count" => count(),
        "stack" => print_stack(),
        "hub" => println!("{}", hub_loop(number(1), &topics(number(2) as u8), number(3))),
        "rust" => println!("{}", rust_loop(number(1), &mut ready(&topics(number(2) as u8)), number(3))),
        _ => panic!("count, stack, hub or rust"),
    }
}

fn count() {
    for (rules, live) in CELLS {
        assert!(u32::from(raw::hub_loop_rules(rules)) == rules, "not all of {rules} rules were taken");
        let topics = topics(live);
        let mut ready = ready(&topics);
        let name = format!("rules {rules}, live topics {live}");
        for messages in LENGTHS {
            let hub = || hub_loop(black_box(rules), black_box(&topics), black_box(messages));
            let rust = || rust_loop(black_box(rules), black_box(&mut ready), black_box(messages));
            row(&name, messages as usize, hub, rust);
        }
    }
}

fn print_stack() {
    let mut deepest = [0, 0];
    for (rules, live) in CELLS {
        let topics = topics(live);
        let mut ready = ready(&topics);
        let ours = stack::depth(|| _ = black_box(hub_loop(rules, &topics, black_box(LENGTHS[0]))));
        let theirs = stack::depth(|| _ = black_box(rust_loop(rules, &mut ready, black_box(LENGTHS[0]))));
        deepest = [deepest[0].max(ours), deepest[1].max(theirs)];
    }
    println!(
        "deepest stack with the start, which adds the rules: Rattle {} bytes, Rust {} bytes",
        deepest[0], deepest[1]
    );
}
