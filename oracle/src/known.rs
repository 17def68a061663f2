//! Packets whose answers were worked out by hand, from the standard and the words of request C-11, with no reader's
//! help.

use crate::drafts::{connect, publish, subscribe, unsubscribe};
use crate::mqtt::TOPIC_MAX;

/// A packet's bytes, number, length and messages.
pub type Known = (Vec<u8>, u32, usize, usize);

/// A packet, and its number, length and messages.
const KNOWN: [(&[u8], u32, usize, usize); 85] = [
    // The length field. Its fourth continuation bit is looked at before missing bytes.
    (b"", 31, 0, 0),
    (b"\x30", 31, 0, 0),
    (b"\xff", 31, 0, 0),
    (b"\x30\x80", 31, 0, 0),
    (b"\x30\xff\xff\xff", 31, 0, 0),
    (b"\x30\xff\xff\xff\x7f", 31, 0, 0),
    (b"\x30\xff\xff\xff\xff", 32, 0, 0),
    (b"\0\xff\xff\xff\xff", 32, 0, 0),
    (b"\xc0\x80\x80\x80\x80\0", 32, 0, 0),
    (b"\xc0\x80\x80\x80\0", 0, 5, 1),
    (b"\x30\x85\0\0\x03a/b", 0, 8, 1),
    (b"\x30\x80\x80\x80\0", 32, 0, 0),
    // Other types: the length field alone.
    (b"\xc0\0", 0, 2, 1),
    (b"\xcf\x03abc", 0, 5, 1),
    (b"\xc0\x03ab", 31, 0, 0),
    (b"\xe0\0\xff\xff", 0, 2, 1),
    (b"\x20\x02\0\0", 0, 4, 1),
    (b"\x90\0", 0, 2, 1),
    (b"\0\0", 32, 0, 0),
    (b"\xf0\0", 32, 0, 0),
    (b"\0\x01", 31, 0, 0),
    (b"\xf0\x01", 31, 0, 0),
    // PUBLISH: flags, name, packet identifier, payload.
    (b"\x30\x07\0\x03a/bhi", 0, 9, 1),
    (b"\x31\x07\0\x03a/bhi", 0, 9, 1),
    (b"\x32\x07\0\x03a/b\0\x01", 0, 9, 1),
    (b"\x3d\x07\0\x03a/b\xff\xff", 0, 9, 1),
    (b"\x32\x07\0\x03a/b\0\0", 32, 0, 0),
    (b"\x30\x07\0\x03a/b\0\0", 0, 9, 1),
    (b"\x36\x07\0\x03a/b\0\x01", 32, 0, 0),
    (b"\x36\x07\0\x03a/b\0", 31, 0, 0),
    (b"\x38\x07\0\x03a/bhi", 32, 0, 0),
    (b"\x3a\x07\0\x03a/b\0\x01", 0, 9, 1),
    (b"\x32\x06\0\x03a/b\x01", 32, 0, 0),
    (b"\x30\x01\0", 32, 0, 0),
    (b"\x30\x05\0\x04a/b", 32, 0, 0),
    (b"\x30\x05\0\x04a/bcccc", 32, 0, 0),
    (b"\x30\x02\0\0", 0, 4, 1),
    (b"\x30\x03\0\x01#", 0, 5, 1),
    (b"\x30\x05\0\x01a\0\xff", 0, 7, 1),
    // Strings: what the standard forbids, and what it only advises against.
    (b"\x30\x03\0\x01\0", 32, 0, 0),
    (b"\x30\x03\0\x01\x01", 0, 5, 1),
    (b"\x30\x05\0\x03\xef\xbb\xbf", 0, 7, 1),
    (b"\x30\x05\0\x03\xef\xbf\xbf", 0, 7, 1),
    (b"\x30\x05\0\x03\xed\xa0\x80", 32, 0, 0),
    (b"\x30\x04\0\x02\xc0\x80", 32, 0, 0),
    (b"\x30\x04\0\x02\xc1\xbf", 32, 0, 0),
    (b"\x30\x05\0\x03\xe0\x9f\xbf", 32, 0, 0),
    (b"\x30\x06\0\x04\xf4\x90\x80\x80", 32, 0, 0),
    (b"\x30\x04\0\x01\xc3\xa9", 32, 0, 0),
    // SUBSCRIBE and UNSUBSCRIBE.
    (b"\x82\x06\0\x01\0\x01#\x02", 0, 8, 1),
    (b"\x82\x0a\0\x01\0\x01a\0\0\x01b\x02", 0, 12, 2),
    (b"\x82\x05\0\x01\0\0\x01", 0, 7, 1),
    (b"\x82\x08\0\x01\0\x03a#b\0", 0, 10, 1),
    (b"\x80\x06\0\x01\0\x01#\x02", 32, 0, 0),
    (b"\x83\x06\0\x01\0\x01#\x02", 32, 0, 0),
    (b"\x82\x06\0\0\0\x01#\x02", 32, 0, 0),
    (b"\x82\x02\0\x01", 32, 0, 0),
    (b"\x82\x06\0\x01\0\x01#\x03", 32, 0, 0),
    (b"\x82\x06\0\x01\0\x01#\x04", 32, 0, 0),
    (b"\x82\x06\0\x01\0\x01#\x80", 32, 0, 0),
    (b"\x82\x05\0\x01\0\x01a\x01", 32, 0, 0),
    (b"\x82\x07\0\x01\0\x01a\x01\0", 32, 0, 0),
    (b"\xa2\x05\0\x01\0\x01a", 0, 7, 1),
    (b"\xa2\x08\0\x01\0\x01a\0\x01b", 0, 10, 2),
    (b"\xa2\x06\0\x01\0\0\0\0", 0, 8, 2),
    (b"\xa0\x05\0\x01\0\x01a", 32, 0, 0),
    (b"\xa2\x05\0\0\0\x01a", 32, 0, 0),
    (b"\xa2\x02\0\x01", 32, 0, 0),
    (b"\xa2\x01\0", 32, 0, 0),
    // CONNECT: the protocol, the flags, the client id, the end.
    (b"\x10\x0d\0\x04MQTT\x04\x02\0\x3c\0\x01a", 0, 15, 1),
    (b"\x12\x0d\0\x04MQTT\x04\x02\0\x3c\0\x01a", 32, 0, 0),
    (b"\x10\x0d\0\x04MQTT\x03\x02\0\x3c\0\x01a", 32, 0, 0),
    (b"\x10\x0d\0\x04MQTT\x05\x02\0\x3c\0\x01a", 32, 0, 0),
    (b"\x10\x0d\0\x04MQTT\x84\x02\0\x3c\0\x01a", 32, 0, 0),
    (b"\x10\x0d\0\x04MQTt\x04\x02\0\x3c\0\x01a", 32, 0, 0),
    (b"\x10\x0f\0\x06MQIsdp\x03\x02\0\x3c\0\x01a", 32, 0, 0),
    (b"\x10\x0d\0\x04MQTT\x04\x03\0\x3c\0\x01a", 32, 0, 0),
    (b"\x10\x0c\0\x04MQTT\x04\x02\0\x3c\0\0", 0, 14, 1),
    (b"\x10\x0c\0\x04MQTT\x04\0\0\x3c\0\0", 32, 0, 0),
    (b"\x10\x0d\0\x04MQTT\x04\0\0\0\0\x01a", 0, 15, 1),
    (b"\x10\x0e\0\x04MQTT\x04\x02\0\x3c\0\x01a\0", 32, 0, 0),
    (b"\x10\x0d\0\x04MQTT\x04\x02\0\x3c\0\x01a\0", 0, 15, 1),
    (b"\x10\x0d\0\x04MQTT\x04\x42\0\x3c\0\x01a", 32, 0, 0),
    (b"\x10\x0d\0\x04MQTT\x04\x82\0\x3c\0\x01a", 32, 0, 0),
    (b"\x10\x10\0\x04MQTT\x04\x82\0\x3c\0\x01a\0\x01b", 0, 18, 1),
];

/// Packets with the lines of their messages at time 5, by a clock that is right.
const LINES: [(&[u8], &str); 7] = [
    (b"\xd0\0", "at=5\nclock=ok\ntype=13\nqos=0\ntopic=\nsize=0\npayload=\n"),
    (b"\x5f\x02ab", "at=5\nclock=ok\ntype=5\nqos=0\ntopic=\nsize=0\npayload=\n"),
    (b"\x30\x07\0\x03a/bhi", "at=5\nclock=ok\ntype=3\nqos=0\ntopic=612f62\nsize=2\npayload=6869\n"),
    (b"\x34\x08\0\x02\xc3\xa9\0\x09\0\xff", "at=5\nclock=ok\ntype=3\nqos=2\ntopic=c3a9\nsize=2\npayload=00ff\n"),
    // A will's QoS is the will's.
    (
        b"\x10\x13\0\x04MQTT\x04\x16\0\x3c\0\x01a\0\x01w\0\x01m",
        "at=5\nclock=ok\ntype=1\nqos=0\ntopic=61\nsize=0\npayload=\n",
    ),
    (
        b"\x82\x0a\0\x01\0\x01a\x01\0\x01b\x02",
        "at=5\nclock=ok\ntype=8\nqos=1\ntopic=61\nsize=0\npayload=\n\
         at=5\nclock=ok\ntype=8\nqos=2\ntopic=62\nsize=0\npayload=\n",
    ),
    (
        b"\xa2\x07\0\x01\0\0\0\x01b",
        "at=5\nclock=ok\ntype=10\nqos=0\ntopic=\nsize=0\npayload=\n\
         at=5\nclock=ok\ntype=10\nqos=0\ntopic=62\nsize=0\npayload=\n",
    ),
];

/// The table above, and packets that are too long for it.
pub fn all() -> Vec<Known> {
    let mut known: Vec<Known> =
        KNOWN.iter().map(|&(bytes, number, length, messages)| (bytes.to_vec(), number, length, messages)).collect();
    let name = |length: usize| vec![b'n'; length];
    let none: [&[u8]; 2] = [b"", b""];
    // What becomes a topic may have 128 bytes.
    for (length, number) in [(TOPIC_MAX, 0), (TOPIC_MAX + 1, 33), (65_535, 33)] {
        let if_taken = |figure: usize| if number == 0 { figure } else { 0 };
        let topic = name(length);
        known.push((publish(0, &topic, 0, b"").bytes(), number, if_taken(3 + 130), if_taken(1)));
        known.push((subscribe(1, &[(b"a", 0), (&topic, 2)]).bytes(), number, if_taken(3 + 2 + 4 + 131), if_taken(2)));
        known.push((unsubscribe(1, &[&topic, b"a"]).bytes(), number, if_taken(3 + 2 + 130 + 3), if_taken(2)));
        known.push((connect(2, &topic, none, none).bytes(), number, if_taken(3 + 10 + 130), if_taken(1)));
        // A will's topic and a user name may have more.
        let texts = connect(0x86, b"a", [&topic, b""], [&topic, b""]);
        let header = if length > 1_000 { 4 } else { 3 };
        known.push((texts.bytes(), 0, header + 10 + 3 + 2 * (2 + length) + 2, 1));
        // A breach behind what is too long comes first.
        known.push((publish(2, &topic, 0, b"").bytes(), 32, 0, 0));
        known.push((subscribe(1, &[(&topic, 0), (b"a", 3)]).bytes(), 32, 0, 0));
        known.push((unsubscribe(1, &[&topic, b"\xff"]).bytes(), 32, 0, 0));
        known.push((connect(0x82, &topic, none, [b"\0", b""]).bytes(), 32, 0, 0));
    }
    // A will's message and a password are any bytes; the flags of a will need one.
    known.push((connect(0xc6, b"a", [b"w", b"\xff\0"], [b"u", b"\xc0\0"]).bytes(), 0, 2 + 10 + 3 + 3 + 4 + 3 + 4, 1));
    known.push((connect(0x06, b"a", [b"\xff", b""], none).bytes(), 32, 0, 0));
    for flags in [0x0a, 0x12, 0x1a, 0x22, 0x1e] {
        known.push((connect(flags, b"a", [b"w", b""], none).bytes(), 32, 0, 0));
    }
    // A password without a user name, with its bytes there.
    known.push((connect(0x42, b"a", none, [b"", b"p"]).bytes(), 32, 0, 0));
    known
}

/// The packets with their lines, and those of payloads that are not inspected as a whole, or too long for a size.
pub fn lines() -> Vec<(Vec<u8>, String)> {
    let mut known: Vec<_> = LINES.iter().map(|&(bytes, lines)| (bytes.to_vec(), lines.to_string())).collect();
    for (length, size) in [(256, 256), (257, 257), (65_535, 65_535), (65_536, 65_535), (70_000, 65_535)] {
        let payload = "a5".repeat(256);
        let lines = format!("at=5\nclock=ok\ntype=3\nqos=0\ntopic=61\nsize={size}\npayload={payload}\n");
        known.push((publish(0, b"a", 0, &vec![0xa5; length]).bytes(), lines));
    }
    known
}
