//! One packet through the archive's `hub_packet` and `hub_packet_lines` against the second reader (mqtt.rs): number,
//! length, messages, and every byte of the lent buffer, with rooms of several sizes. Then two laws on the archive's own
//! answers: a packet with bytes missing is another one once they are there, and not before; and of any other, nothing
//! that stands before or behind it matters. What the packets met is counted (covered.rs).

use crate::covered::Covered;
use crate::drafts::bytes;
use crate::hub::{self, HubPacket, HubPacketLines};
use crate::mqtt::{self, Header};
use crate::tally::{Class, Random, show};

/// How much room the lines get: by their length, which is 0 where the packet is refused.
#[derive(Clone, Copy)]
pub enum Room {
    None,
    Short,
    Exact,
    Spare(usize),
}

pub const EVERY_ROOM: [Room; 4] = [Room::None, Room::Short, Room::Exact, Room::Spare(40)];

/// Time and verdict, as a caller brings them.
pub type Time = (u64, bool);

/// Bytes behind the room that must stay as they are.
const BEHIND: usize = 64;

/// A packet with more bytes missing is not filled up; one with many seldom, since that takes long.
const MISSING_MAX: usize = 3_000_000;
const MISSING_MANY: usize = 10_000;

/// The classes so far, what they met, and buffers that are used again: the lines that are expected, the lent room, what
/// it holds beforehand, and a packet that is moved or filled up.
pub struct Jack {
    pub classes: Vec<Class>,
    pub covered: Covered,
    lines: Vec<u8>,
    room: Vec<u8>,
    kept: Vec<u8>,
    moved: Vec<u8>,
    random: Random,
}

impl Jack {
    pub fn new(seed: u64) -> Jack {
        Jack {
            classes: Vec::new(),
            covered: Covered::default(),
            lines: Vec::new(),
            room: Vec::new(),
            kept: Vec::new(),
            moved: Vec::new(),
            random: Random(seed),
        }
    }

    /// Compares the answers to what stands at one place.
    pub fn compare(&mut self, class: &mut Class, bytes: &[u8], place: usize, time: Time, rooms: &[Room]) {
        let read = mqtt::read(bytes, place);
        self.lines.clear();
        let wanted = match &read {
            Ok(packet) => {
                packet.messages.iter().for_each(|message| mqtt::write(message, time.0, time.1, &mut self.lines));
                HubPacket { number: 0, length: packet.length, messages: packet.messages.len() }
            }
            Err(refused) => HubPacket { number: refused.check.number(), length: 0, messages: 0 },
        };
        let answer = hub::packet(bytes, place);
        let mut wrong = None;
        if answer != wanted {
            let why = read.as_ref().err().map_or(String::new(), |refused| format!(" by {:?}", refused.check));
            wrong = Some(format!("hub {answer:?}, expected {wanted:?}{why}"));
        }
        for room in rooms {
            let so_wrong = self.written(bytes, place, time, wanted.number, *room);
            wrong = wrong.or(so_wrong);
        }
        let against_law = self.laws(bytes.get(place..).unwrap_or_default(), answer);
        if let Some(wrong) = wrong.or(against_law) {
            class.differ(bytes.len(), || saved(bytes, place, self.classes.len(), &wrong));
        }
        class.agree();
        self.covered.count(bytes, place, &read);
    }

    /// What is wrong with the lines that the archive writes into such a room, if anything.
    fn written(&mut self, bytes: &[u8], place: usize, (at, clock_ok): Time, number: u32, room: Room) -> Option<String> {
        let length = self.lines.len();
        let room = match room {
            Room::None => 0,
            Room::Short => length.saturating_sub(1),
            Room::Exact => length,
            Room::Spare(more) => length + more,
        };
        let number = if number == 0 && room < length { 28 } else { number };
        let length = if number == 0 { length } else { 0 };
        // No line has such bytes, and neighbours differ.
        while self.kept.len() < room + BEHIND {
            self.kept.push(0x80 | self.kept.len() as u8);
            self.room.push(0x80 | self.room.len() as u8);
        }
        match number {
            0 if room == length => self.covered.met("room that is just enough", 0),
            0 => self.covered.met("room to spare", 0),
            28 if room == 0 => self.covered.met("28 with no room", 0),
            28 if room + 1 == self.lines.len() => self.covered.met("28 with room for all but a byte", 0),
            _ if room == 0 => self.covered.met("refused with no room", 0),
            _ => {}
        }
        let wanted = HubPacketLines { number, line: 0, length };
        let answer = hub::packet_lines(bytes, place, at, clock_ok, &mut self.room[..room]);
        let expected = |place: usize| if place < length { self.lines[place] } else { self.kept[place] };
        let all = room + BEHIND;
        let same = self.room[..length] == self.lines[..length] && self.room[length..all] == self.kept[length..all];
        let mut wrong = None;
        if answer != wanted || !same {
            let mut words = format!("room for {room} bytes: hub {answer:?}, expected {wanted:?}");
            if let Some(place) = (0..all).find(|&place| self.room[place] != expected(place)) {
                words += &format!("; byte {place} of the room is {}, expected {}", self.room[place], expected(place));
            }
            wrong = Some(words);
        }
        self.room[..all].copy_from_slice(&self.kept[..all]);
        wrong
    }

    /// What is wrong with the archive's answers to the same packet with other bytes around it, or with its missing
    /// ones.
    fn laws(&mut self, packet: &[u8], answer: HubPacket) -> Option<String> {
        if answer.number == 31 {
            return self.filled(packet);
        }
        // A fourth continuation bit ends all that is looked at.
        let end = mqtt::header(packet).map_or(5, |header| header.bytes + header.remaining).min(packet.len());
        let [before, behind] = [self.random.below(4), self.random.below(9)];
        self.moved.clear();
        self.moved.extend(bytes(&mut self.random, before));
        self.moved.extend_from_slice(&packet[..end]);
        self.moved.extend(bytes(&mut self.random, behind));
        let again = hub::packet(&self.moved, before);
        self.covered.met("moved among other bytes", 0);
        (again != answer).then(|| format!("hub {answer:?}, and {again:?} with other bytes before and behind it"))
    }

    /// The same of a packet with bytes missing. The length field, if it stops short, gets its last byte first.
    fn filled(&mut self, packet: &[u8]) -> Option<String> {
        self.moved.clear();
        self.moved.extend_from_slice(packet);
        if packet.is_empty() {
            self.moved.push(self.random.next() as u8);
        }
        if mqtt::header(&self.moved).is_err() {
            self.moved.push(self.random.pick(&[0, 0, 1, 2, 127]));
        }
        let Ok(Header { bytes, remaining, .. }) = mqtt::header(&self.moved) else {
            return Some("hub says 31 of a length field with a fourth continuation bit".into());
        };
        let length = bytes + remaining;
        if length <= packet.len() {
            return Some("hub says 31, and no byte is missing".into());
        }
        let missing = length - self.moved.len();
        if missing > MISSING_MAX || missing > MISSING_MANY && !self.random.one_in(500) {
            return None;
        }
        let fill = self.random.next() as u8;
        if missing > 0 {
            self.moved.resize(length - 1, fill);
            let number = hub::packet(&self.moved, 0).number;
            if number != 31 {
                return Some(format!("hub {number}, with all but one of its missing bytes, {fill} each"));
            }
        }
        self.moved.resize(length, fill);
        self.covered.met("31, filled up with what is missing", 0);
        (hub::packet(&self.moved, 0).number == 31).then(|| format!("hub 31, with its missing bytes, {fill} each"))
    }
}

/// Writes the input beside this program, and says where and what is wrong with the answer to it.
fn saved(bytes: &[u8], place: usize, name: usize, wrong: &str) -> String {
    let path = std::env::current_exe().unwrap().with_file_name(format!("differs-packets-{name}.mqtt"));
    std::fs::write(&path, bytes).unwrap();
    let shown = show(&bytes[..bytes.len().min(300)]);
    format!("{} of {} bytes, at place {place}: {wrong}; it begins with {shown}", path.display(), bytes.len())
}
