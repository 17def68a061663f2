//! packets [--seed N] [FOLDER]: MQTT packets (request C-11) through the archive's `hub_packet` and `hub_packet_lines`
//! against a second reader (jack.rs, mqtt.rs): packets with answers that are known, whole spaces of small damages, and
//! random ones, whole and damaged. With a folder, what real clients sent too (captures.rs). What they met is counted:
//! each check, and each shape, size, place and room (covered.rs); anything that was never met is a failure.

mod captures;
mod checks;
mod covered;
mod drafts;
mod hub;
mod jack;
mod known;
mod make;
mod mqtt;
mod tally;

use drafts::{Draft, Part, STRING_MAX, connect, length_field, publish, string, subscribe, unsubscribe};
use hub::{HubPacket, HubPacketLines};
use jack::{EVERY_ROOM, Jack, Room, Time};
use make::{BROKEN, EDGES};
use std::path::Path;
use tally::{Class, Random};

/// Packets for each seed, whole ones and as many damaged ones.
const PACKETS: usize = 400_000;

/// Buffers of several packets for each seed.
const WALKS: usize = 3_000;

/// The longest time, in digits, and a clock that is wrong.
const LATE: Time = (u64::MAX, false);

fn main() {
    let mut words: Vec<String> = std::env::args().skip(1).collect();
    // The seed is two words.
    let folder = if words.len() % 2 == 1 { words.pop() } else { None };
    let seeds = tally::seeds(&words);
    let mut jack = Jack::new(seeds[1]);
    known_answers(&mut jack);
    every_damage(&mut jack);
    every_field(&mut jack);
    every_flag(&mut jack);
    every_first_byte(&mut jack);
    every_length_field(&mut jack);
    every_place(&mut jack);
    large(&mut jack);
    for seed in seeds {
        let random = &mut Random(seed);
        of_random(&mut jack, seed, random);
        walks(&mut jack, seed, random);
    }
    jack.classes.extend(jack.covered.classes());
    match folder {
        Some(folder) => jack.classes.extend(captures::classes(Path::new(&folder))),
        None => println!("no folder of captures was named, and none is looked at"),
    }
    if !tally::report(&jack.classes) {
        std::process::exit(1);
    }
}

/// Packets whose answers are known without a reader: the second one must say so too.
fn known_answers(jack: &mut Jack) {
    let mut class = Class::new("packets with answers that are known");
    for (bytes, number, length, messages) in known::all() {
        let second = match mqtt::read(&bytes, 0) {
            Ok(packet) => (0, packet.length, packet.messages.len()),
            Err(refused) => (refused.check.number(), 0, 0),
        };
        assert_eq!(second, (number, length, messages), "the second reader: {}", bytes.escape_ascii());
        jack.compare(&mut class, &bytes, 0, LATE, &EVERY_ROOM);
        class.same(&[&bytes], hub::packet(&bytes, 0), HubPacket { number, length, messages });
    }
    for (bytes, lines) in known::lines() {
        let mut second = Vec::new();
        let packet = mqtt::read(&bytes, 0).expect("a packet that is taken");
        packet.messages.iter().for_each(|message| mqtt::write(message, 5, true, &mut second));
        assert_eq!(second, lines.as_bytes(), "the second writer: {}", bytes.escape_ascii());
        jack.compare(&mut class, &bytes, 0, (5, true), &EVERY_ROOM);
        // One byte more, for an archive that writes behind its room.
        let (mut room, length) = (vec![0; lines.len() + 1], lines.len());
        let answer = hub::packet_lines(&bytes, 0, 5, true, &mut room[..length]);
        class.same(&[&bytes], (answer, &room[..length]), (taken(length), lines.as_bytes()));
    }
    jack.classes.push(class);
}

/// The answer where so many bytes were written.
fn taken(length: usize) -> HubPacketLines {
    HubPacketLines { number: 0, line: 0, length }
}

/// The short examples: cut off at every place, every byte each of the 256, lost, or doubled.
fn every_damage(jack: &mut Jack) {
    let mut class = Class::new("short packets of every shape, and every small damage of them");
    for bytes in drafts::examples().iter().map(Draft::bytes) {
        jack.compare(&mut class, &bytes, 0, (0, true), &EVERY_ROOM);
        for place in 0..bytes.len() {
            let (before, behind) = (&bytes[..place], &bytes[place + 1..]);
            jack.compare(&mut class, before, 0, (1, true), &EVERY_ROOM);
            jack.compare(&mut class, &[before, behind].concat(), 0, (9, false), &EVERY_ROOM);
            jack.compare(&mut class, &[before, &[bytes[place]; 2], behind].concat(), 0, (10, true), &EVERY_ROOM);
            let mut changed = bytes.clone();
            for byte in 0..=255 {
                changed[place] = byte;
                jack.compare(&mut class, &changed, 0, LATE, &EVERY_ROOM);
            }
        }
    }
    jack.classes.push(class);
}

/// Every field of the short examples, one at a time: lengths that are off, strings of many lengths, and all that can be
/// wrong in one; a field that is cut short or longer; and a packet that ends in it, which its length field knows.
fn every_field(jack: &mut Jack) {
    let mut class = Class::new("short packets of every shape, and every field of them");
    let strings: Vec<Vec<u8>> = [0, 1, 127, 128, 129, 130, 255, 256, 257, STRING_MAX]
        .map(|length| vec![b's'; length])
        .into_iter()
        .chain(BROKEN.into_iter().chain(EDGES.map(str::as_bytes)).chain([&b"\0"[..]]).flat_map(in_strings))
        .collect();
    for draft in drafts::examples() {
        for (place, part) in draft.parts.iter().enumerate() {
            let others = match part {
                Part::Counted(bytes, _) => {
                    let length = bytes.len() as i64;
                    let offs = [1 - length, -length, -2, -1, 1, 2, 128, 256, STRING_MAX as i64 - length];
                    let offs = offs.into_iter().map(|off| Part::Counted(bytes.clone(), off));
                    offs.chain(strings.iter().map(|bytes| string(bytes))).collect::<Vec<_>>()
                }
                Part::Plain(bytes) => {
                    let plain = [vec![0; bytes.len()], [&bytes[..], b"\0"].concat()];
                    let short = (0..bytes.len()).map(|length| bytes[..length].to_vec());
                    plain.into_iter().chain(short).map(Part::Plain).collect()
                }
            };
            for other in others {
                let mut draft = draft.clone();
                draft.parts[place] = other;
                jack.compare(&mut class, &draft.bytes(), 0, LATE, &EVERY_ROOM);
                // The same with the last field gone.
                draft.parts.pop();
                jack.compare(&mut class, &draft.bytes(), 0, LATE, &[Room::Exact]);
            }
        }
        let bytes = draft.bytes();
        let header = mqtt::header(&bytes).expect("a whole packet");
        for off in -(header.remaining as i64)..=4 {
            for width in 1..=5 {
                let bytes = Draft { off, width, ..draft.clone() }.bytes();
                jack.compare(&mut class, &bytes, 0, (99, true), &EVERY_ROOM);
            }
        }
    }
    jack.classes.push(class);
}

/// A few bytes alone in a string, first, last, among others, and in one that is too long for a topic.
fn in_strings(bytes: &[u8]) -> Vec<Vec<u8>> {
    let long = b"a/".repeat(70);
    let around: [[&[u8]; 2]; 6] = [[b"", b""], [b"", b"a"], [b"a/", b""], [b"a", b"/b"], [&long, b""], [b"", &long]];
    around.into_iter().map(|[before, behind]| [before, bytes, behind].concat()).collect()
}

/// Every flag byte of a CONNECT before every payload that any of them announces, and that one cut short or longer.
fn every_flag(jack: &mut Jack) {
    let mut class = Class::new("every flag byte of a CONNECT, with payloads that fit and that do not");
    let long = [b'i'; 129];
    for (flags, payload) in (0..=255).flat_map(|flags| (0..8).map(move |payload: u8| (flags, payload))) {
        for client_id in [&b""[..], b"i", &long[..128], &long] {
            // A will, a password and a user name, each if its bit is there.
            let announced = (payload & 1) << 2 | payload << 5 & 0xc0;
            let mut draft = connect(announced, client_id, [b"w", b"m"], [b"u", b""]);
            draft.parts[2] = Part::Plain(vec![flags]);
            jack.compare(&mut class, &draft.bytes(), 0, (1, false), &[Room::Exact]);
            draft.parts.push(Part::Plain(vec![0]));
            jack.compare(&mut class, &draft.bytes(), 0, (1, false), &[Room::Exact]);
            draft.parts.pop();
            draft.parts.pop();
            jack.compare(&mut class, &draft.bytes(), 0, (1, false), &[Room::Exact]);
        }
    }
    jack.classes.push(class);
}

/// Every first byte before the rest of every short example, which is whole, or has a length field of another width, or
/// lacks its last byte.
fn every_first_byte(jack: &mut Jack) {
    let mut class = Class::new("every first byte before bodies of each kind");
    for (first, draft) in (0..=255).flat_map(|first| drafts::examples().into_iter().map(move |draft| (first, draft))) {
        for width in 1..=5 {
            let bytes = Draft { first, width, ..draft.clone() }.bytes();
            jack.compare(&mut class, &bytes, 0, LATE, &EVERY_ROOM);
            jack.compare(&mut class, &bytes[..bytes.len() - 1], 0, LATE, &[Room::Spare(1)]);
        }
    }
    jack.classes.push(class);
}

/// Every length field over some bytes, whole or cut short, with nothing, a little and more behind it.
fn every_length_field(jack: &mut Jack) {
    let mut class = Class::new("every length field over six bytes");
    for field in make::short(b"\x00\x01\x7f\x80\x81\xff", 5) {
        for first in [0x00, 0x30, 0xa2, 0xc0] {
            for behind in [0, 3, 400] {
                let bytes = [&[first][..], &field, &vec![0; behind]].concat();
                jack.compare(&mut class, &bytes, 0, (7, true), &[Room::Exact]);
            }
        }
    }
    jack.classes.push(class);
}

/// Every place of a buffer with all short examples in it, and places past its end, to the largest number.
fn every_place(jack: &mut Jack) {
    let mut class = Class::new("every place of a buffer of many packets, and places past its end");
    let buffer: Vec<u8> = drafts::examples().iter().flat_map(Draft::bytes).collect();
    let ends = [0, 1, 2, 63, 64].map(|more| buffer.len() + more);
    let far = [usize::MAX, usize::MAX - 1, usize::MAX - 4, usize::MAX - buffer.len(), 1 << 63, 1 << 32, 1 << 31];
    for place in (0..buffer.len()).chain(ends).chain(far) {
        jack.compare(&mut class, &buffer, place, LATE, &EVERY_ROOM);
        jack.compare(&mut class, b"", place, LATE, &EVERY_ROOM);
    }
    jack.classes.push(class);
}

/// Packets about as long as a length field of each width can say.
fn large(jack: &mut Jack) {
    let mut class = Class::new("large packets");
    let filter: &[u8] = &[b'f'; 128];
    for remaining in [126, 127, 128, 129, 16_383, 16_384, 65_535, 65_536, 65_537, 65_540, 2_097_151, 2_097_152] {
        let mut drafts = vec![publish(0, b"p", 0, &vec![0xa5; remaining - 3])];
        drafts.push(publish(4, b"p", 9, &vec![0; remaining - 5]));
        drafts.push(Draft::new(0xd0, vec![Part::Plain(vec![1; remaining])]));
        // Filters of 128 bytes, and before them one that takes what is left.
        let (left, many) = ((remaining - 2) % 131, (remaining - 2) / 131);
        if left >= 3 {
            let first = [(&filter[..left - 3], 1)];
            drafts.push(subscribe(1, &[&first[..], &vec![(filter, 2); many]].concat()));
        }
        let (left, many) = ((remaining - 2) % 130, (remaining - 2) / 130);
        if left >= 2 {
            drafts.push(unsubscribe(1, &[&[&filter[..left - 2]][..], &vec![filter; many]].concat()));
        }
        if remaining < 20_000 {
            drafts.push(unsubscribe(1, &vec![&b""[..]; (remaining - 2) / 2]));
            drafts.push(subscribe(1, &vec![(&b""[..], 0); (remaining - 2) / 3]));
        }
        for draft in drafts {
            let bytes = draft.bytes();
            jack.compare(&mut class, &bytes, 0, LATE, &EVERY_ROOM);
            jack.compare(&mut class, &bytes[..bytes.len() - 1], 0, LATE, &[Room::Spare(9)]);
            jack.compare(&mut class, &[&bytes[..], &bytes].concat(), bytes.len(), LATE, &[Room::Exact]);
        }
    }
    assert_eq!(length_field(2_097_152, 1).len(), 4);
    jack.classes.push(class);
}

/// Whole packets, which the second reader must take too, and damaged ones.
fn of_random(jack: &mut Jack, seed: u64, random: &mut Random) {
    let mut class = Class::new(format!("whole packets, seed {seed}"));
    for _ in 0..PACKETS {
        let (draft, messages) = drafts::whole(random);
        let bytes = draft.bytes();
        let second = mqtt::read(&bytes, 0).map(|packet| packet.messages.len());
        assert_eq!(second, Ok(messages), "the second reader: {}", bytes.escape_ascii());
        let (time, room) = (some_time(random), some_room(random));
        jack.compare(&mut class, &bytes, 0, time, &[room]);
    }
    jack.classes.push(class);
    let mut class = Class::new(format!("damaged packets, seed {seed}"));
    for _ in 0..PACKETS {
        let bytes = drafts::damaged(random);
        let (time, room) = (some_time(random), some_room(random));
        jack.compare(&mut class, &bytes, 0, time, &[room]);
    }
    jack.classes.push(class);
}

/// Buffers of several packets, the last of which may be damaged, walked by the archive's own lengths.
fn walks(jack: &mut Jack, seed: u64, random: &mut Random) {
    let mut class = Class::new(format!("buffers of several packets, seed {seed}"));
    for _ in 0..WALKS {
        let (mut buffer, mut places) = (Vec::new(), Vec::new());
        for _ in 0..random.pick(&[0, 1, 2, 5, 9]) {
            places.push(buffer.len());
            buffer.extend(drafts::whole(random).0.bytes());
        }
        let end = buffer.len();
        if random.one_in(2) {
            buffer.extend(drafts::damaged(random));
        }
        let (mut place, mut walked) = (0, Vec::new());
        while place < end && walked.len() <= places.len() {
            let (time, room) = (some_time(random), some_room(random));
            jack.compare(&mut class, &buffer, place, time, &[room]);
            walked.push(place);
            place += hub::packet(&buffer, place).length;
        }
        class.same(&[&buffer], (place, walked), (end, places));
        let (time, room) = (some_time(random), some_room(random));
        jack.compare(&mut class, &buffer, end, time, &[room]);
    }
    jack.classes.push(class);
}

fn some_time(random: &mut Random) -> Time {
    let any = random.next() >> random.below(64);
    (random.pick(&[0, 9, 10, u64::MAX, any, any]), random.one_in(2))
}

fn some_room(random: &mut Random) -> Room {
    let spare = Room::Spare(random.below(100));
    random.pick(&[Room::None, Room::Short, Room::Exact, Room::Exact, spare, spare])
}
