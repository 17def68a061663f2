//! benchqueue: runs of packets after an opening (request C-12), by the archive of wake and by Rust that does the same
//! jobs: the second reader (mqtt.rs), which allocates a list of each packet's messages, the original's inspections, with
//! buckets of request C-17 (oracle/opened/kept.rs), and the records as the Rust driver of a trace writes them. For
//! bin/measure.
//!   benchqueue count           each run by either side, in two rows: no packets, and then the run
//!   benchqueue stack           the deepest stack of either side, over all runs
//!   benchqueue write FOLDER    a file for each opening and run, for oracle/woken.sh: the length of a settings text in two
//!                              bytes, that text and the packets; and the records of each
//!
//! The Rust writes into room that is there already and never meets 28: it measures no record, and could not take back what
//! it inspected.

mod checks;
mod drafts;
mod hub;
mod make;
mod mqtt;
mod rows;
mod stack;
mod tally;

use drafts::{Draft, connect, publish, subscribe, unsubscribe};
use hub::HubQueue;
use rows::row;
use std::fmt::Write;
use std::hint::black_box;
use std::path::Path;
use vs_mqtt_monitor::MqttMonitor;
use vs_types_embedded::{MqttMessage, MqttPacketType, MqttQoS, opened};

/// The time of each message, and the verdict on it.
const AT: u64 = 1_000_000_000;
const CLOCK_OK: bool = true;

/// The most bytes of a record.
const RECORD_LONGEST: usize = 528;

/// The rules of the two openings.
const RULES: [usize; 2] = [1, 32];

/// The messages of each run.
const MESSAGES: usize = 64;

/// The topics of a run, 16 bytes each.
const TOPICS: usize = 16;

fn topic(number: usize) -> Vec<u8> {
    format!("site/east/lamp/{:x}", number % TOPICS).into_bytes()
}

/// The rules of an opening, or of settings: none but the last takes a topic or filter of the runs, and it limits them.
fn rules(count: usize) -> String {
    let mut text = format!("rules={count}\n");
    for rule in 1..=count {
        let pattern = if rule < count { format!("site/+/room-{rule}/#") } else { "site/+/lamp/+".into() };
        let pattern: String = pattern.bytes().map(|byte| format!("{byte:02x}")).collect();
        write!(text, "pattern={pattern}\naction=allow\nqos=min1\nrate=65535\n").unwrap();
    }
    text
}

/// The runs by name, each of as many messages, all of them allowed: PUBLISHes; SUBSCRIBEs; and packets of six types, in
/// which one PUBLISH of eight and each filter of an UNSUBSCRIBE have a QoS that the rule alerts on (kind 4).
fn runs() -> [(&'static str, Vec<u8>); 3] {
    let sent = |number: usize| publish(2, &topic(number), 1, b"55555555");
    let filters = |count: usize| (0..count).map(topic).collect::<Vec<Vec<u8>>>();
    let asked = |count: usize| {
        subscribe(1, &filters(count).iter().map(|filter| (filter.as_slice(), 1)).collect::<Vec<(&[u8], u8)>>())
    };
    let left = unsubscribe(1, &filters(2).iter().map(Vec::as_slice).collect::<Vec<&[u8]>>());
    let mut mixed = Vec::new();
    for turn in 0..MESSAGES / 16 {
        mixed.push(connect(2, format!("mount-{turn}").as_bytes(), [b"", b""], [b"", b""]));
        mixed.push(asked(3));
        mixed.extend((0..7).map(|number| sent(8 * turn + number)));
        mixed.push(publish(0, &topic(8 * turn + 7), 0, b"55555555"));
        mixed.push(left.clone());
        mixed.push(Draft::new(0x40, vec![drafts::Part::Plain(vec![0, 1])]));
        mixed.push(Draft::new(0xc0, vec![]));
    }
    let bytes = |packets: Vec<Draft>| packets.iter().flat_map(Draft::bytes).collect::<Vec<u8>>();
    [
        ("PUBLISH, topic 16, payload 8", bytes((0..MESSAGES).map(sent).collect())),
        ("SUBSCRIBE, filters 8", bytes((0..MESSAGES / 8).map(|_| asked(8)).collect())),
        ("a mix", bytes(mixed)),
    ]
}

#[unsafe(no_mangle)]
#[inline(never)]
fn rust_queue(text: &[u8], at: u64, clock_ok: bool, packets: &[u8], out: &mut Vec<u8>) -> HubQueue {
    let mut monitor = MqttMonitor::new();
    let number = trace::run_on(&mut monitor, text, &mut Vec::new(), |_, _, _| {}).number;
    let mut end = HubQueue { number, place: 0, done: 0, length: 0, inspected: 0, total: 0 };
    let mut message = MqttMessage::default();
    opened::set_verdict(clock_ok);
    while end.number == 0 && end.place < packets.len() {
        match mqtt::read(packets, end.place) {
            Ok(packet) => {
                for read in &packet.messages {
                    fill(&mut message, read, at);
                    end.done += 1;
                    trace::put_record(out, end.done, &monitor.inspect(&message));
                }
                end.place += packet.length;
            }
            Err(refused) => end.number = refused.check.number(),
        }
    }
    HubQueue { length: out.len(), inspected: monitor.total_inspected(), total: monitor.total_alerts(), ..end }
}

/// A message that was read, as the original takes it; what stands behind its topic and payload is not looked at.
fn fill(message: &mut MqttMessage, read: &mqtt::Message, at: u64) {
    let payload = &read.payload[..read.payload.len().min(mqtt::INSPECTED)];
    message.timestamp_us = at;
    message.packet_type = MqttPacketType::from_raw(read.kind).expect("a packet type");
    message.qos = MqttQoS::from_raw(read.qos).expect("a level");
    message.topic_len = read.topic.len() as u8;
    message.topic[..read.topic.len()].copy_from_slice(read.topic);
    message.payload_len = read.payload.len().min(mqtt::SIZE_MAX) as u16;
    message.payload_inspectable_len = payload.len() as u16;
    message.payload[..payload.len()].copy_from_slice(payload);
}

/// A run by the archive, with its records.
fn by_hub(opening: &str, packets: &[u8]) -> (HubQueue, Vec<u8>) {
    let mut out = vec![0; MESSAGES * RECORD_LONGEST];
    let text = black_box(opening.as_bytes());
    let end = hub::queue(text, black_box(AT), black_box(CLOCK_OK), black_box(packets), &mut out);
    out.truncate(end.length);
    (end, out)
}

/// The same by the Rust.
fn by_rust(opening: &str, packets: &[u8]) -> (HubQueue, Vec<u8>) {
    let mut out = Vec::with_capacity(MESSAGES * RECORD_LONGEST);
    let text = black_box(opening.as_bytes());
    let end = rust_queue(text, black_box(AT), black_box(CLOCK_OK), black_box(packets), &mut out);
    (end, out)
}

fn main() {
    let words: Vec<String> = std::env::args().skip(1).collect();
    match words[0].as_str() {
        "count" => count(),
        "stack" => print_stack(),
        "write" => write_runs(Path::new(&words[1])),
        _ => panic!("count, stack or write"),
    }
}

fn count() {
    for rule_count in RULES {
        let opening = format!("default=block\n{}", rules(rule_count));
        for (name, packets) in runs() {
            let name = format!("rules {rule_count}: {name}");
            for (parts, bytes) in [(0, &b""[..]), (MESSAGES, &packets)] {
                // No call but these two may stand here: all that is called between rows is counted into the next one.
                let hub = || {
                    let ran = by_hub(&opening, bytes);
                    let whole = (0, bytes.len(), parts as u64);
                    assert!((ran.0.number, ran.0.place, ran.0.done) == whole, "not whole: {name}");
                    ran
                };
                row(&name, parts, hub, || by_rust(&opening, bytes));
            }
        }
    }
}

fn print_stack() {
    let mut deepest = [0, 0];
    for rule_count in RULES {
        let opening = format!("default=block\n{}", rules(rule_count));
        for (_, packets) in runs() {
            let mut room = vec![0; MESSAGES * RECORD_LONGEST];
            let mut out = Vec::with_capacity(room.len());
            let ours = stack::depth(|| _ = hub::queue(opening.as_bytes(), AT, CLOCK_OK, &packets, &mut room));
            let theirs = stack::depth(|| _ = rust_queue(opening.as_bytes(), AT, CLOCK_OK, &packets, &mut out));
            deepest = [deepest[0].max(ours), deepest[1].max(theirs)];
        }
    }
    println!("deepest stack with the opening: Rattle {} bytes, Rust {} bytes", deepest[0], deepest[1]);
}

fn write_runs(folder: &Path) {
    for rule_count in RULES {
        let settings = format!("form=1\ndefault=block\nthreshold=5\nwindow=60000000\n{}", rules(rule_count));
        let opening = format!("default=block\n{}", rules(rule_count));
        for (name, packets) in [("none", Vec::new())].into_iter().chain(runs()) {
            let place = folder.join(format!("rules {rule_count}: {name}"));
            let head = (settings.len() as u16).to_be_bytes();
            std::fs::write(&place, [&head, settings.as_bytes(), &packets].concat()).unwrap();
            std::fs::write(folder.join(format!("rules {rule_count}: {name}.out")), by_hub(&opening, &packets).1)
                .unwrap();
        }
    }
}
