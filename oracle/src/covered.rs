//! What the packets of a run met: every check (checks.rs), and each shape, size, place and room. Anything that was
//! never met is a failure.

use crate::checks::{Check, TOPICS};
use crate::mqtt::{self, Packet, Refused, TOPIC_MAX};
use crate::tally::Class;
use std::collections::BTreeMap;

/// The fewest packets of a run.
const FEWEST: u64 = 1_000_000;

/// What must have been met beside every check, and of which numbers; no number where there is but one.
const MORE: [(&str, &[usize]); 27] = [
    ("packets with number", &[0, 31, 32, 33]),
    ("packets of type", &[1, 2, 3, 4, 5, 6, 7, 8, 9, 10, 11, 12, 13, 14]),
    ("PUBLISH of QoS", &[0, 1, 2]),
    ("SUBSCRIBE of QoS", &[0, 1, 2]),
    ("no topic in type", &[1, 3, 8, 10]),
    ("a topic of 128 bytes in type", &[1, 3, 8, 10]),
    ("a topic with U+FEFF in type", &[1, 3, 8, 10]),
    ("several filters in type", &[8, 10]),
    ("a payload of", &[0, 1, 255, 256, 257, 65_534, 65_535, 65_536]),
    ("length field of width", &[1, 2, 3, 4]),
    ("length field longer than it needs, of width", &[2, 3, 4]),
    ("a remaining length of", &[0, 127, 128, 16_383, 16_384, 2_097_151, 2_097_152]),
    ("32 behind a string that is too long, in type", &[1, 3, 8, 10]),
    ("33, and the packet ends the input", &[]),
    ("a fourth continuation bit that the input ends with", &[]),
    ("31 with the first byte of a packet that is 32", &[]),
    ("bytes before the packet", &[]),
    ("bytes behind the packet", &[]),
    ("a place past the end", &[]),
    ("place 2^64 - 1", &[]),
    ("28 with no room", &[]),
    ("28 with room for all but a byte", &[]),
    ("room that is just enough", &[]),
    ("room to spare", &[]),
    ("refused with no room", &[]),
    ("31, filled up with what is missing", &[]),
    ("moved among other bytes", &[]),
];

/// How many packets there were, and how often each check and anything else was met.
#[derive(Default)]
pub struct Covered {
    packets: u64,
    checks: BTreeMap<Check, u64>,
    more: BTreeMap<(&'static str, usize), u64>,
}

impl Covered {
    /// Counts one of the above, with its number or 0.
    pub fn met(&mut self, what: &'static str, which: usize) {
        *self.more.entry((what, which)).or_default() += 1;
    }

    /// Counts what one packet met.
    pub fn count(&mut self, bytes: &[u8], place: usize, read: &Result<Packet, Refused>) {
        self.packets += 1;
        let rest = bytes.get(place..).unwrap_or_default();
        let header = mqtt::header(rest).ok();
        let places = [
            ("bytes before the packet", place > 0 && !rest.is_empty()),
            ("a place past the end", place > bytes.len()),
            ("place 2^64 - 1", place == usize::MAX),
        ];
        places.into_iter().filter(|(_, met)| *met).for_each(|(what, _)| self.met(what, 0));
        let (check, behind) = match read {
            Ok(packet) => {
                self.met("packets with number", 0);
                return self.count_taken(packet, rest.len());
            }
            Err(Refused { check, behind }) => (*check, *behind),
        };
        *self.checks.entry(check).or_default() += 1;
        self.met("packets with number", check.number() as usize);
        let first = header.map_or(0, |header| header.first);
        if let Some(field) = behind {
            let kind = [1, 3, 8, 10][TOPICS.iter().position(|topic| *topic == field).unwrap()];
            self.met("32 behind a string that is too long, in type", kind);
        }
        match check {
            Check::TooLong(_) if rest.len() == header.map_or(0, |header| header.bytes + header.remaining) => {
                self.met("33, and the packet ends the input", 0)
            }
            Check::FourthContinuation if rest.len() == 5 => {
                self.met("a fourth continuation bit that the input ends with", 0)
            }
            Check::BodyMissing if [0x00, 0xf0, 0x36, 0x38, 0x80, 0xa0, 0x11].contains(&first) => {
                self.met("31 with the first byte of a packet that is 32", 0)
            }
            _ => {}
        }
    }

    /// The same of a packet that is taken, with so many bytes from its place to the end of the input.
    fn count_taken(&mut self, packet: &Packet, bytes: usize) {
        let Packet { length, header, messages } = packet;
        if *length < bytes {
            self.met("bytes behind the packet", 0);
        }
        let kind = usize::from(messages[0].kind);
        self.met("packets of type", kind);
        self.met("length field of width", header - 1);
        let remaining = length - header;
        if remaining < 128usize.pow(*header as u32 - 2) && *header > 2 {
            self.met("length field longer than it needs, of width", header - 1);
        }
        self.met("a remaining length of", remaining);
        if messages.len() > 1 {
            self.met("several filters in type", kind);
        }
        if ![1, 3, 8, 10].contains(&kind) {
            return;
        }
        for message in messages {
            match message.topic {
                [] => self.met("no topic in type", kind),
                topic if topic.len() == TOPIC_MAX => self.met("a topic of 128 bytes in type", kind),
                [0xef, 0xbb, 0xbf, ..] => self.met("a topic with U+FEFF in type", kind),
                _ => {}
            }
            match kind {
                3 => {
                    self.met("PUBLISH of QoS", message.qos.into());
                    self.met("a payload of", message.payload.len());
                }
                8 => self.met("SUBSCRIBE of QoS", message.qos.into()),
                _ => {}
            }
        }
    }

    /// Classes for all that a run must have met, and no check besides.
    pub fn classes(&self) -> Vec<Class> {
        let mut classes = Vec::new();
        let groups = Check::all();
        for (name, checks) in &groups {
            let mut class = Class::new(*name);
            for check in checks {
                class.seen(&format!("{check:?}"), self.checks.get(check).copied().unwrap_or(0));
                class.agree();
            }
            classes.push(class);
        }
        let mut class = Class::new("every shape, size, place and room");
        for (what, numbers) in MORE {
            for number in if numbers.is_empty() { &[0] } else { numbers } {
                let name = if numbers.is_empty() { what.into() } else { format!("{what} {number}") };
                class.seen(&name, self.more.get(&(what, *number)).copied().unwrap_or(0));
                class.agree();
            }
        }
        let listed = |check: &&Check| groups.iter().any(|(_, checks)| checks.contains(check));
        for check in self.checks.keys().filter(|check| !listed(check)) {
            class.differ(0, || format!("a packet failed {check:?}, which is not among the checks"));
        }
        classes.push(class);
        let mut class = Class::new(format!("{} packets in all, and at least {FEWEST}", self.packets));
        class.same(&[], self.packets >= FEWEST, true);
        classes.push(class);
        classes
    }
}
