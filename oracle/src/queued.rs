//! What a run of packets must come to, by the words of request C-12 and not by our code: the second reader's messages
//! (mqtt.rs), packet after packet, each inspected singly by the Rust original, and their records as the Rust driver of a
//! trace writes them. The archive's `hub_queue` and the call of crates/calls are both held to it.

use crate::mqtt::{self, INSPECTED, Message, SIZE_MAX};
use vs_mqtt_monitor::{MqttInspectResult, MqttMonitor, state};
use vs_types_embedded::{MqttMessage, MqttPacketType, MqttQoS, opened};

/// "One time and one verdict for all."
pub type Time = (u64, bool);

/// How a run ended: its number, 0 where it is whole; the place and the messages done, which are reported; and their
/// records. Beside these, for whoever counts or chooses rooms, each message with its result and what all records so far
/// have in bytes; and the same for each packet, with how many messages were done.
#[derive(Default)]
pub struct Ran {
    pub number: u32,
    pub place: usize,
    pub done: u64,
    pub records: Vec<u8>,
    pub messages: Vec<(MqttMessage, MqttInspectResult, usize)>,
    pub packets: Vec<(u64, usize)>,
}

/// The run of these packets into so much room, from a state on that calls hand out, which is then the one after it.
pub fn run(monitor: &mut MqttMonitor, packets: &[u8], time: Time, room: usize) -> Ran {
    let mut ran = Ran::default();
    // "An empty run, or one that ends at its last byte, is whole."
    while ran.place < packets.len() {
        // "A packet refused by C-11 ends the run at its first byte", and that "is tested before 28, packet by packet".
        let packet = match mqtt::read(packets, ran.place) {
            Ok(packet) => packet,
            Err(refused) => {
                ran.number = refused.check.number();
                break;
            }
        };
        // "The records of one packet are written all or none": so it is inspected on a copy, and kept only if it fits.
        let (mut next, before) = (state::copy(monitor), ran.records.len());
        for (message, n) in packet.messages.iter().zip(ran.done + 1..) {
            let (message, result) = inspect(&mut next, message, time);
            trace::put_record(&mut ran.records, n, &result);
            ran.messages.push((message, result, ran.records.len()));
        }
        // "28 where the next packet's records don't fit", "nothing of it inspected"; an exact fit passes.
        if ran.records.len() > room {
            ran.number = 28;
            ran.records.truncate(before);
            ran.messages.truncate(ran.done as usize);
            break;
        }
        *monitor = next;
        ran.place += packet.length;
        ran.done += packet.messages.len() as u64;
        ran.packets.push((ran.done, ran.records.len()));
    }
    ran
}

/// Inspects a message that was read, of which the size is capped and the payload cut as in a trace.
fn inspect(monitor: &mut MqttMonitor, read: &Message, (at, clock_ok): Time) -> (MqttMessage, MqttInspectResult) {
    let payload = &read.payload[..read.payload.len().min(INSPECTED)];
    let mut message = MqttMessage {
        timestamp_us: at,
        packet_type: MqttPacketType::from_raw(read.kind).expect("a packet type"),
        qos: MqttQoS::from_raw(read.qos).expect("a level"),
        topic_len: read.topic.len() as u8,
        payload_len: read.payload.len().min(SIZE_MAX) as u16,
        payload_inspectable_len: payload.len() as u16,
        ..MqttMessage::default()
    };
    message.topic[..read.topic.len()].copy_from_slice(read.topic);
    message.payload[..payload.len()].copy_from_slice(payload);
    opened::set_verdict(clock_ok);
    let result = monitor.inspect(&message);
    (message, result)
}
