//! benchpackets: MQTT packets by the archive of jack, by the second reader of bin/compare (mqtt.rs), which allocates a
//! list of a packet's messages, and, if they are PUBLISHes, by Paho's reader (paho.rs), for bin/measure. Each has two
//! or three rows, whose parts are its bytes: `hub_packet` and the second reader; `hub_packet_lines` and that reader
//! with its writer, into room that is there already; and `hub_packet` once more and Paho's reader.

mod checks;
mod drafts;
mod hub;
mod make;
mod measured;
mod mqtt;
mod paho;
mod rows;
mod tally;

use hub::{HubPacket, HubPacketLines};
use rows::row;
use std::hint::black_box;

/// The time of each message, and the verdict on it.
const AT: u64 = 1_000_000_000;
const CLOCK_OK: bool = true;

/// The most bytes of a message's lines.
const MESSAGE_LONGEST: usize = 843;

#[unsafe(no_mangle)]
#[inline(never)]
fn rust_packet(bytes: &[u8]) -> HubPacket {
    match mqtt::read(bytes, 0) {
        Ok(packet) => HubPacket { number: 0, length: packet.length, messages: packet.messages.len() },
        Err(refused) => HubPacket { number: refused.check.number(), length: 0, messages: 0 },
    }
}

#[unsafe(no_mangle)]
#[inline(never)]
fn rust_packet_lines(bytes: &[u8], at: u64, clock_ok: bool, out: &mut Vec<u8>) -> HubPacketLines {
    let number = match mqtt::read(bytes, 0) {
        Ok(packet) => {
            packet.messages.iter().for_each(|message| mqtt::write(message, at, clock_ok, out));
            0
        }
        Err(refused) => refused.check.number(),
    };
    HubPacketLines { number, line: 0, length: out.len() }
}

#[unsafe(no_mangle)]
#[inline(never)]
fn paho_packet(bytes: &mut [u8]) -> Option<(usize, usize, usize)> {
    paho::publish(bytes)
}

fn main() {
    let packets = measured::packets();
    paho::start();
    for (name, bytes) in &packets {
        let packet = mqtt::read(bytes, 0).expect("a packet that is taken");
        assert_eq!(packet.length, bytes.len(), "{name}");
        row(name, bytes.len(), || hub::packet(black_box(bytes), 0), || rust_packet(black_box(bytes)));
        let room = packet.messages.len() * MESSAGE_LONGEST;
        let hub = || {
            let mut out = vec![0; room];
            let answer = hub::packet_lines(black_box(bytes), 0, black_box(AT), black_box(CLOCK_OK), &mut out);
            out.truncate(answer.length);
            (answer, out)
        };
        let rust = || {
            let mut out = Vec::with_capacity(room);
            (rust_packet_lines(black_box(bytes), black_box(AT), black_box(CLOCK_OK), &mut out), out)
        };
        row(name, bytes.len(), hub, rust);
        if let [message] = packet.messages[..]
            && message.kind == mqtt::PUBLISH
        {
            let lengths = (message.topic.len(), message.payload.len());
            // What the library makes ready at its first call is not counted.
            let mut copy = bytes.clone();
            black_box(paho::publish(&mut copy));
            let hub = || Some((hub::packet(black_box(bytes), 0).length, lengths.0, lengths.1));
            row(name, bytes.len(), hub, || paho_packet(black_box(&mut copy)));
        }
    }
}
