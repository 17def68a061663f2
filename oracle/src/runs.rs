//! Random runs of packets after random traces: each run has a subject, so that its messages meet in the tables, and some
//! have packets in them that are refused.

use crate::damage;
use crate::drafts::{self, Draft, Part, bytes, connect, publish, subscribe, unsubscribe};
use crate::mqtt::{self, TOPIC_MAX};
use crate::queued::Time;
use crate::tally::Random;
use crate::wake::Wake;
use std::io::Write;

/// The most packets of a run.
pub const MOST: usize = 60;

/// The most filters of a packet.
pub const FILTERS: usize = 40;

/// The most messages of a trace.
const MESSAGES: usize = 20;

/// What the messages of a trace and of the run behind it are about.
#[derive(Clone, Copy)]
enum Subject {
    /// More topics than there are buckets.
    Crowd,
    /// One client and few others.
    Storm,
    /// Filters, broad ones and dollar names among them.
    Filters,
    /// One topic with payloads that are mostly small.
    Sizes,
    /// A few topics, filters and clients.
    Few,
    /// Packets of every shape.
    Any,
}

use Subject::*;

/// Topics and filters that rules, denials and broad subscriptions tell apart.
const NAMES: [&[u8]; 14] =
    [b"m/1", b"m/2", b"m/2", b"b/x", b"q/1", b"c", b"", b"$SYS/a", b"#", b"+", b"+/#", b"m/+", b"a/#", b"$SYS/#"];

/// A run and its trace.
pub fn wake(random: &mut Random) -> Wake {
    let subject = random.pick(&[Crowd, Storm, Filters, Sizes, Few, Few, Any]);
    let mut trace = opening(random);
    let step = random.pick(&[0, 0, 1, 1000, 250_000, 1_000_000, 20_000_000]);
    let mut now: u64 = random.pick(&[0, 1, 5_000_000, 10_000_000_000, u64::MAX - 30_000_000]);
    let some = random.below(MESSAGES);
    let many = random.pick(&[0, 0, 1, some, some, MESSAGES]);
    let mut messages = 0;
    while messages < many {
        let bytes = packet(random, subject).bytes();
        let verdict = !random.one_in(10);
        // A packet of several messages may be too many of them.
        let read = mqtt::read(&bytes, 0).expect("a packet that is taken");
        for message in read.messages.iter().take(many - messages) {
            mqtt::write(message, now, verdict, &mut trace);
            messages += 1;
        }
        now = now.saturating_add(step);
    }
    if random.one_in(8) {
        trace = damage::one(random, &trace);
    }
    let time = time(random, now);
    let some = 1 + random.below(MOST);
    let many = random.pick(&[1, 2, 3, 8, some, some, MOST]);
    let packets = (0..many).map(|_| packet(random, subject).bytes()).collect();
    made(trace, time, with_refused(random, packets))
}

/// A run of these packets.
pub fn made(trace: Vec<u8>, time: Time, packets: Vec<Vec<u8>>) -> Wake {
    let last = packets.iter().rev().skip(1).map(Vec::len).sum();
    Wake { trace, time, packets: packets.concat(), last }
}

/// Mostly as the trace goes on, else back, or an edge; and the verdict.
fn time(random: &mut Random, now: u64) -> Time {
    let on = now.saturating_add(random.pick(&[0, 1, 400_000, 1_000_000, 60_000_000, 301_000_000]));
    let back = now.saturating_sub(random.pick(&[1, 1000, 5_000_000]));
    (random.pick(&[now, now, on, on, on, back, 0, u64::MAX]), !random.one_in(6))
}

/// The default and up to 32 rules, most of them with a rate that a run can use up.
fn opening(random: &mut Random) -> Vec<u8> {
    let rate = random.pick(&[0, 1, 1, 2, 3, 65_535]);
    let policy = random.pick(&["any", "any", "min1", "only2"]);
    let mut rules = vec![
        ("m/+".to_string(), "allow", "any", rate),
        ("b/#".into(), "block", "any", 1),
        ("q/+".into(), "allow", policy, rate),
        ("#".into(), random.pick(&["allow", "allow", "block"]), policy, random.pick(&[0, 1, 2])),
    ];
    // Those that nothing matches come first, and so the others last.
    rules.splice(0..0, (0..28).map(|place| (format!("r/{place}"), "allow", "any", 1)));
    let count = random.pick(&[0, 1, 1, 2, 3, 4, 4, 4, 5, 32]);
    let default = random.pick(&["allow", "allow", "allow", "block"]);
    let mut text = format!("default={default}\nrules={count}\n").into_bytes();
    for (pattern, action, qos, rate) in &rules[rules.len() - count..] {
        text.extend(b"pattern=");
        mqtt::hex(pattern.as_bytes(), &mut text);
        write!(text, "\naction={action}\nqos={qos}\nrate={rate}\n").unwrap();
    }
    text
}

/// A packet that is taken.
fn packet(random: &mut Random, subject: Subject) -> Draft {
    let kind = match subject {
        Crowd | Sizes => random.pick(&[0, 0, 0, 0, 0, 0, 1, 2, 3, 4]),
        Storm => random.pick(&[1, 1, 1, 1, 0, 4]),
        Filters => random.pick(&[2, 2, 2, 3, 3, 0]),
        Few => random.pick(&[0, 0, 0, 1, 2, 3, 4]),
        Any => return drafts::whole(random).0,
    };
    let none: [&[u8]; 2] = [b"", b""];
    match kind {
        0 => {
            let (flags, id) = (random.pick(&[0, 0, 1, 2, 3, 4, 5, 10, 13]), 1 + random.below(65_535) as u16);
            let (topic, length) = (topic(random, subject), payload(random, subject));
            publish(flags, &topic, id, &bytes(random, length))
        }
        1 => {
            let other = format!("client {}", random.below(20));
            let client = if random.one_in(3) { other.as_bytes() } else { random.pick(&[&b"c1"[..], b"c1", b""]) };
            connect(2, client, none, none)
        }
        2 | 3 => {
            let some = 1 + random.below(5);
            let count = random.pick(&[1, 1, 2, some, some, FILTERS]);
            let filters: Vec<Vec<u8>> = (0..count).map(|_| topic(random, Filters)).collect();
            if kind == 3 {
                return unsubscribe(1, &filters.iter().map(Vec::as_slice).collect::<Vec<_>>());
            }
            let filters: Vec<(&[u8], u8)> = filters.iter().map(|filter| (&filter[..], random.below(3) as u8)).collect();
            subscribe(1, &filters)
        }
        _ => Draft::new(random.pick(&[2, 4, 5, 6, 7, 9, 11, 12, 13, 14]) << 4, vec![Part::Plain(vec![0, 1])]),
    }
}

fn topic(random: &mut Random, subject: Subject) -> Vec<u8> {
    if random.one_in(40) {
        return vec![b't'; TOPIC_MAX];
    }
    match subject {
        Crowd => format!("m/{}", random.below(40)).into_bytes(),
        Sizes => random.pick(&[&b"m/1"[..], b"m/1", b"c"]).to_vec(),
        _ => random.pick(&NAMES).to_vec(),
    }
}

/// How long a payload is: mostly of one size where sizes are watched, so that a large one is far above it.
fn payload(random: &mut Random, subject: Subject) -> usize {
    if random.one_in(200) {
        return random.pick(&[65_534, 65_535, 65_536, 65_537]);
    }
    match subject {
        Sizes => random.pick(&[4, 4, 4, 4, 4, 4, 4, 4, 4, 16, 17, 300]),
        _ => random.pick(&[0, 0, 0, 1, 10, 255, 256, 257]),
    }
}

/// Often one or two that are refused among them: first, last or anywhere.
fn with_refused(random: &mut Random, mut packets: Vec<Vec<u8>>) -> Vec<Vec<u8>> {
    for _ in 0..random.pick(&[0, 0, 0, 1, 1, 2]) {
        let any = random.below(packets.len() + 1);
        let place = random.pick(&[0, any, any, any, packets.len()]);
        packets.insert(place, refused(random));
    }
    packets
}

/// A packet that is mostly refused, by each number.
fn refused(random: &mut Random) -> Vec<u8> {
    let (long, none): (_, [&[u8]; 2]) = (vec![b'l'; TOPIC_MAX + 1], [b"", b""]);
    match random.below(8) {
        0 => Draft::new(random.pick(&[0x00, 0xf0]), vec![Part::Plain(vec![0; 3])]).bytes(),
        1 => publish(0, &long, 0, b"x").bytes(),
        2 => subscribe(1, &[(b"m/1", 0), (&long, 0), (b"m/2", 1)]).bytes(),
        3 => connect(2, &long, none, none).bytes(),
        // More bytes are missing than stand behind it, or so few that what stands there is taken for them.
        4 | 5 => Draft { off: random.pick(&[1, 5, 100_000]), ..publish(0, b"m/1", 0, b"missing") }.bytes(),
        _ => drafts::damaged(random),
    }
}
