//! Packets put together field by field, so that a single flag, field or length can be made wrong while all others stay
//! right: whole ones of every shape, and what a wrong hand or a bad line makes of them. Up to three damages are in one
//! packet, so that it is seen which of two refusals comes first.

use crate::make::{BROKEN, EDGES};
use crate::mqtt::TOPIC_MAX;
use crate::tally::Random;

/// The most bytes that a string's length can say.
pub const STRING_MAX: usize = 65_535;

/// A field: bytes as they stand, or bytes behind a length that may be off.
#[derive(Clone, Debug)]
pub enum Part {
    Plain(Vec<u8>),
    Counted(Vec<u8>, i64),
}

use Part::*;

/// A packet before it is bytes: its first byte and its fields; the fewest bytes of its length field, where 5 means
/// one continuation bit too many; and how far the remaining length is off.
#[derive(Clone, Debug)]
pub struct Draft {
    pub first: u8,
    pub parts: Vec<Part>,
    pub width: usize,
    pub off: i64,
}

impl Draft {
    pub fn new(first: u8, parts: Vec<Part>) -> Draft {
        Draft { first, parts, width: 1, off: 0 }
    }

    pub fn bytes(&self) -> Vec<u8> {
        let mut body = Vec::new();
        for part in &self.parts {
            let bytes = match part {
                Plain(bytes) => bytes,
                Counted(bytes, off) => {
                    body.extend(((bytes.len() as i64 + off) as u16).to_be_bytes());
                    bytes
                }
            };
            body.extend_from_slice(bytes);
        }
        let mut bytes = vec![self.first];
        bytes.extend(length_field((body.len() as i64 + self.off).max(0) as usize, self.width));
        bytes.extend(body);
        bytes
    }
}

/// A remaining length in at least so many bytes.
pub fn length_field(mut remaining: usize, width: usize) -> Vec<u8> {
    let mut field = Vec::new();
    loop {
        field.push((remaining % 128) as u8);
        remaining /= 128;
        if remaining == 0 && field.len() >= width {
            break;
        }
        *field.last_mut().unwrap() |= 128;
    }
    field
}

/// A string with its length.
pub fn string(bytes: &[u8]) -> Part {
    Counted(bytes.to_vec(), 0)
}

/// A CONNECT with these flags, and in its payload what they announce.
pub fn connect(flags: u8, client_id: &[u8], will: [&[u8]; 2], user: [&[u8]; 2]) -> Draft {
    let mut parts = vec![string(b"MQTT"), Plain(vec![4]), Plain(vec![flags]), Plain(vec![0, 60]), string(client_id)];
    if flags & 4 != 0 {
        parts.extend(will.map(string));
    }
    for (flag, bytes) in [(0x80, user[0]), (0x40, user[1])] {
        if flags & flag != 0 {
            parts.push(string(bytes));
        }
    }
    Draft::new(0x10, parts)
}

pub fn publish(flags: u8, topic: &[u8], id: u16, payload: &[u8]) -> Draft {
    let mut parts = vec![string(topic)];
    if flags & 6 != 0 {
        parts.push(Plain(id.to_be_bytes().to_vec()));
    }
    parts.push(Plain(payload.to_vec()));
    Draft::new(0x30 | flags, parts)
}

pub fn subscribe(id: u16, filters: &[(&[u8], u8)]) -> Draft {
    let mut parts = vec![Plain(id.to_be_bytes().to_vec())];
    for (filter, qos) in filters {
        parts.extend([string(filter), Plain(vec![*qos])]);
    }
    Draft::new(0x82, parts)
}

pub fn unsubscribe(id: u16, filters: &[&[u8]]) -> Draft {
    let id = Plain(id.to_be_bytes().to_vec());
    Draft::new(0xa2, [id].into_iter().chain(filters.iter().map(|filter| string(filter))).collect())
}

/// Short packets of every shape, all of them taken.
pub fn examples() -> Vec<Draft> {
    let none: [&[u8]; 2] = [b"", b""];
    let mut wide = publish(0, b"m/x", 0, b"wide");
    wide.width = 3;
    vec![
        connect(0x02, b"", none, none),
        connect(0xf6, "caf\u{e9}".as_bytes(), [b"w/t", b"\0\xff"], [b"me", b"\xfe"]),
        connect(0x80, b"id", none, [b"u", b""]),
        publish(0, b"m/a", 0, b"hello"),
        publish(0x0d, "m/\u{1f52d}".as_bytes(), 7, b""),
        subscribe(10, &[(b"a/+", 1)]),
        subscribe(0x100, &[(b"a", 0), (b"", 2), (b"#", 1)]),
        unsubscribe(1, &[b"a/#"]),
        unsubscribe(0xffff, &[b"x", b"", b"yz"]),
        Draft::new(0xc0, vec![]),
        Draft::new(0x90, vec![Plain(vec![0, 1, 0x80])]),
        wide,
    ]
}

/// A packet that is taken, and how many messages it gives.
pub fn whole(random: &mut Random) -> (Draft, usize) {
    let id = 1 + random.below(65_535) as u16;
    let id = random.pick(&[1, 0xff, 0x100, 0xffff, id]);
    let mut messages = 1;
    let mut draft = match random.below(9) {
        0..2 => some_connect(random),
        2..5 => {
            let flags = random.pick(&[0, 1, 2, 3, 4, 5, 10, 11, 12, 13]);
            let (topic, length) = (topic(random), some_payload(random));
            publish(flags, &topic, id, &bytes(random, length))
        }
        5..7 => {
            let filters = filters(random);
            messages = filters.len();
            let filters: Vec<(&[u8], u8)> = filters.iter().map(|filter| (&filter[..], random.below(3) as u8)).collect();
            subscribe(id, &filters)
        }
        7 => {
            let filters = filters(random);
            messages = filters.len();
            unsubscribe(id, &filters.iter().map(|filter| &filter[..]).collect::<Vec<_>>())
        }
        _ => {
            let kind = random.pick(&[2, 4, 5, 6, 7, 9, 11, 12, 13, 14]) << 4;
            let length = random.pick(&[0, 0, 2, 2, 3, 30]);
            Draft::new(kind | random.pick(&[0, 0, 2, 15]), vec![Plain(bytes(random, length))])
        }
    };
    if random.one_in(6) {
        draft.width = 2 + random.below(3);
    }
    (draft, messages)
}

/// A CONNECT with any flags that go together.
fn some_connect(random: &mut Random) -> Draft {
    let will = if random.one_in(2) { 4 | random.pick(&[0, 8, 16]) | random.pick(&[0, 32]) } else { 0 };
    let user = random.pick(&[0, 0x80, 0xc0]);
    let client_id = topic(random);
    let clean = if client_id.is_empty() || random.one_in(2) { 2 } else { 0 };
    let texts = [any_string(random), any_string(random)];
    let [will_message, password] = [0, 0].map(|_: u8| {
        let length = random.pick(&[0, 1, 5, 129]);
        bytes(random, length)
    });
    connect(will | user | clean, &client_id, [&texts[0], &will_message], [&texts[1], &password])
}

/// Any bytes.
pub fn bytes(random: &mut Random, length: usize) -> Vec<u8> {
    let mut bytes: Vec<u8> = (0..length.div_ceil(8)).flat_map(|_| random.next().to_le_bytes()).collect();
    bytes.truncate(length);
    bytes
}

/// Around the lengths that the inspected part and the size know; the long ones seldom, since they take long.
fn some_payload(random: &mut Random) -> usize {
    let some = random.below(40);
    if random.one_in(2_000) {
        return random.pick(&[16_384, 65_534, 65_535, 65_536, 70_000]);
    }
    random.pick(&[0, 0, 1, 2, some, some, some, 255, 256, 257])
}

/// What may become a topic.
fn topic(random: &mut Random) -> Vec<u8> {
    let some = random.below(20);
    let length = random.pick(&[0, 1, 3, some, some, some, some, 127, TOPIC_MAX]);
    text(random, length)
}

/// A string that may be longer than a topic.
fn any_string(random: &mut Random) -> Vec<u8> {
    let length = random.pick(&[0, 1, 4, 8, 8, TOPIC_MAX, TOPIC_MAX + 1, 300]);
    let length = if random.one_in(2_000) { STRING_MAX } else { length };
    text(random, length)
}

/// A string of so many bytes: letters and the signs of topics, and mostly some character of several bytes in it.
fn text(random: &mut Random, length: usize) -> Vec<u8> {
    let mut text = random.bytes(length, b"abc/+#$ ");
    if random.one_in(3) {
        return text;
    }
    let edge = random.pick(&EDGES).as_bytes();
    if edge.len() <= length {
        let any = random.below(length - edge.len() + 1);
        let place = random.pick(&[0, length - edge.len(), any]);
        text[place..place + edge.len()].copy_from_slice(edge);
    }
    text
}

fn filters(random: &mut Random) -> Vec<Vec<u8>> {
    let many = if random.one_in(200) { 100 } else { 4 };
    (0..random.pick(&[1, 1, 1, 2, 3, many])).map(|_| topic(random)).collect()
}

/// A packet that is mostly refused.
pub fn damaged(random: &mut Random) -> Vec<u8> {
    let (mut draft, _) = whole(random);
    for _ in 0..random.pick(&[1, 1, 1, 2, 3]) {
        spoil(random, &mut draft);
    }
    let mut bytes = draft.bytes();
    if random.one_in(6) {
        spoil_bytes(random, &mut bytes);
    }
    bytes
}

/// One damage more, which mostly leaves the packet's length right.
fn spoil(random: &mut Random, draft: &mut Draft) {
    let place = random.below(draft.parts.len().max(1));
    match (random.below(12), draft.parts.get_mut(place)) {
        (0, _) => draft.first = random.next() as u8,
        (1, _) => draft.first ^= random.pick(&[1, 2, 4, 8, 6, 0x10, 0x80]),
        (2, _) => draft.off = random.pick(&[-2, -1, -1, 1, 1, 2, 100, 127, 16_384]),
        (3, _) => draft.width = 1 + random.below(5),
        (4, _) => {
            let more = random.pick(&[1, 1, 2, 3, 10]);
            draft.parts.push(Plain(bytes(random, more)));
        }
        (5, Some(_)) => _ = draft.parts.remove(place),
        (6, Some(part)) => {
            let part = part.clone();
            draft.parts.insert(place, part);
        }
        (7, Some(_)) => draft.parts.truncate(place),
        (_, Some(Counted(bytes, off))) => match random.below(5) {
            0 => *off = random.pick(&[-2, -1, -1, 1, 1, 2, 128, 256, 40_000]),
            1 => *bytes = broken(random, bytes),
            2 => {
                let length = random.pick(&[TOPIC_MAX, TOPIC_MAX + 1, TOPIC_MAX + 1, 200, 300]);
                *bytes = text(random, length);
            }
            3 => *bytes = random.pick(&[&b""[..], b"MQTT", b"MQIsdp", b"mqtt", b"MQTT\0"]).to_vec(),
            _ => {
                let levels = random.pick(&[1, 63, 64, 65, 100]);
                *bytes = broken(random, &b"a/".repeat(levels));
            }
        },
        (_, Some(Plain(bytes))) if !bytes.is_empty() => {
            let place = random.below(bytes.len().min(4));
            match random.below(4) {
                0 => bytes.fill(0),
                1 => bytes[place] = random.next() as u8,
                2 => bytes[place] ^= 1 << random.below(8),
                _ => bytes.truncate(place),
            }
        }
        _ => draft.parts.push(Plain(vec![random.next() as u8])),
    }
}

/// A string with something in it that is no UTF-8, or with U+0000.
fn broken(random: &mut Random, bytes: &[u8]) -> Vec<u8> {
    let flaw = if random.one_in(6) { b"\0" } else { random.pick(&BROKEN) };
    let any = random.below(bytes.len() + 1);
    let place = random.pick(&[0, bytes.len(), any]);
    [&bytes[..place], flaw, &bytes[place..]].concat()
}

/// What happens to a packet of which nothing is known but its bytes.
fn spoil_bytes(random: &mut Random, bytes: &mut Vec<u8>) {
    let most = bytes.len().min(if random.one_in(2) { 20 } else { bytes.len() });
    let place = random.below(most);
    match random.below(5) {
        0 => bytes.truncate(place),
        1 => bytes[place] = random.next() as u8,
        2 => bytes[place] = bytes[place].wrapping_add(random.pick(&[1, 255])),
        3 => bytes.insert(place, random.next() as u8),
        _ => _ = bytes.remove(place),
    }
}
