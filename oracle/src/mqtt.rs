//! A second reader of packets: from MQTT 3.1.1 (OASIS), section 1.5.3 and chapters 2 and 3, and from the words of
//! request C-11, not from our code. It goes through a packet once, field after field, and stops at the first test that
//! fails (checks.rs). Where a packet fails several tests of one number, ours may stop at another one: its name is there
//! to be counted, and not compared.

use crate::checks::{Check, Field, Flaw};
use std::io::Write;

/// The most bytes of what becomes a topic, of a payload that is inspected, and of a size.
pub const TOPIC_MAX: usize = 128;
pub const INSPECTED: usize = 256;
pub const SIZE_MAX: usize = 65_535;

/// The four types that are read, as they stand in the first byte.
pub const CONNECT: u8 = 1;
pub const PUBLISH: u8 = 3;
pub const SUBSCRIBE: u8 = 8;
pub const UNSUBSCRIBE: u8 = 10;

/// What a packet gives to the inspection; the payload is whole.
#[derive(Clone, Copy, Debug, PartialEq)]
pub struct Message<'a> {
    pub kind: u8,
    pub qos: u8,
    pub topic: &'a [u8],
    pub payload: &'a [u8],
}

/// A packet that is taken: how many bytes it has, those of its fixed header, and its messages.
#[derive(Debug, PartialEq)]
pub struct Packet<'a> {
    pub length: usize,
    pub header: usize,
    pub messages: Vec<Message<'a>>,
}

/// A packet that is refused: the first test that it fails, and what stood before that and was too long for a topic.
#[derive(Clone, Copy, Debug, PartialEq)]
pub struct Refused {
    pub check: Check,
    pub behind: Option<Field>,
}

impl From<Check> for Refused {
    fn from(check: Check) -> Refused {
        Refused { check, behind: None }
    }
}

/// A fixed header: its first byte, how many bytes it has, and how many follow it.
#[derive(Clone, Copy, Debug, PartialEq)]
pub struct Header {
    pub first: u8,
    pub bytes: usize,
    pub remaining: usize,
}

/// Reads the fixed header that these bytes begin with (section 2.2).
pub fn header(bytes: &[u8]) -> Result<Header, Check> {
    let (&first, length) = bytes.split_first().ok_or(Check::Nothing)?;
    let mut remaining = 0;
    for place in 0..4 {
        let byte = *length.get(place).ok_or(Check::LengthMissing(place))?;
        remaining += usize::from(byte % 128) * 128usize.pow(place as u32);
        if byte < 128 {
            return Ok(Header { first, bytes: place + 2, remaining });
        }
    }
    Err(Check::FourthContinuation)
}

/// Reads the packet at a place, which may be any number.
pub fn read(bytes: &[u8], place: usize) -> Result<Packet<'_>, Refused> {
    let bytes = bytes.get(place..).unwrap_or_default();
    let header = header(bytes)?;
    let rest = bytes[header.bytes..].get(..header.remaining).ok_or(Check::BodyMissing)?;
    let mut body = Body { rest, long: None };
    let messages = body.messages(header.first).map_err(|check| Refused { check, behind: body.long })?;
    match body.long {
        Some(field) => Err(Check::TooLong(field).into()),
        None => Ok(Packet { length: header.bytes + header.remaining, header: header.bytes, messages }),
    }
}

/// What is left of a packet, and the first string in it that is too long for a topic.
struct Body<'a> {
    rest: &'a [u8],
    long: Option<Field>,
}

impl<'a> Body<'a> {
    fn messages(&mut self, first: u8) -> Result<Vec<Message<'a>>, Check> {
        let (kind, flags) = (first >> 4, first & 0x0f);
        match kind {
            0 | 15 => Err(Check::ReservedType),
            CONNECT => self.connect(flags),
            PUBLISH => self.publish(flags),
            SUBSCRIBE => self.subscribe(flags),
            UNSUBSCRIBE => self.unsubscribe(flags),
            _ => Ok(vec![Message { kind, qos: 0, topic: b"", payload: b"" }]),
        }
    }

    /// Section 3.1.
    fn connect(&mut self, header_flags: u8) -> Result<Vec<Message<'a>>, Check> {
        refuse(header_flags != 0, Check::ConnectHeaderFlags)?;
        refuse(self.counted(Field::ProtocolName)? != b"MQTT", Check::WrongName)?;
        refuse(self.byte(Field::ProtocolLevel)? != 4, Check::WrongLevel)?;
        let flags = self.byte(Field::ConnectFlags)?;
        let [user_name, password, will_retain, will, clean_session, reserved] =
            [7, 6, 5, 2, 1, 0].map(|bit| flags >> bit & 1 == 1);
        let will_qos = flags >> 3 & 3;
        refuse(reserved, Check::ReservedConnectFlag)?;
        refuse(!will && will_qos != 0, Check::WillQosWithoutWill)?;
        refuse(!will && will_retain, Check::WillRetainWithoutWill)?;
        refuse(will_qos == 3, Check::WillQos3)?;
        refuse(password && !user_name, Check::PasswordWithoutUser)?;
        self.number(Field::KeepAlive)?;
        let client_id = self.topic(Field::ClientId)?;
        refuse(client_id.is_empty() && !clean_session, Check::EmptyClientIdWithoutClean)?;
        if will {
            self.string(Field::WillTopic)?;
            self.counted(Field::WillMessage)?;
        }
        if user_name {
            self.string(Field::UserName)?;
        }
        if password {
            self.counted(Field::Password)?;
        }
        refuse(!self.rest.is_empty(), Check::BytesBehindConnect)?;
        Ok(vec![Message { kind: CONNECT, qos: 0, topic: client_id, payload: b"" }])
    }

    /// Section 3.3.
    fn publish(&mut self, flags: u8) -> Result<Vec<Message<'a>>, Check> {
        let (dup, qos) = (flags & 8 != 0, flags >> 1 & 3);
        refuse(qos == 3, Check::PublishQos3)?;
        refuse(dup && qos == 0, Check::DupQos0)?;
        let topic = self.topic(Field::PublishTopic)?;
        if qos > 0 {
            self.id(Field::PublishId)?;
        }
        Ok(vec![Message { kind: PUBLISH, qos, topic, payload: self.rest }])
    }

    /// Section 3.8.
    fn subscribe(&mut self, flags: u8) -> Result<Vec<Message<'a>>, Check> {
        refuse(flags != 2, Check::SubscribeHeaderFlags)?;
        self.id(Field::SubscribeId)?;
        refuse(self.rest.is_empty(), Check::NoFilter(Field::SubscribeFilter))?;
        let mut messages = Vec::new();
        while !self.rest.is_empty() {
            let topic = self.topic(Field::SubscribeFilter)?;
            let qos = self.byte(Field::RequestedQos)?;
            refuse(qos == 3, Check::RequestedQos3)?;
            refuse(qos > 3, Check::RequestedReservedBits)?;
            messages.push(Message { kind: SUBSCRIBE, qos, topic, payload: b"" });
        }
        Ok(messages)
    }

    /// Section 3.10.
    fn unsubscribe(&mut self, flags: u8) -> Result<Vec<Message<'a>>, Check> {
        refuse(flags != 2, Check::UnsubscribeHeaderFlags)?;
        self.id(Field::UnsubscribeId)?;
        refuse(self.rest.is_empty(), Check::NoFilter(Field::UnsubscribeFilter))?;
        let mut messages = Vec::new();
        while !self.rest.is_empty() {
            let topic = self.topic(Field::UnsubscribeFilter)?;
            messages.push(Message { kind: UNSUBSCRIBE, qos: 0, topic, payload: b"" });
        }
        Ok(messages)
    }

    /// So many bytes, or the test that failed where there are fewer.
    fn take(&mut self, length: usize, else_failed: Check) -> Result<&'a [u8], Check> {
        let (taken, rest) = self.rest.split_at_checked(length).ok_or(else_failed)?;
        self.rest = rest;
        Ok(taken)
    }

    fn byte(&mut self, field: Field) -> Result<u8, Check> {
        Ok(self.take(1, Check::Past(field))?[0])
    }

    fn number(&mut self, field: Field) -> Result<u16, Check> {
        let bytes = self.take(2, Check::Past(field))?;
        Ok(u16::from_be_bytes([bytes[0], bytes[1]]))
    }

    fn id(&mut self, field: Field) -> Result<(), Check> {
        refuse(self.number(field)? == 0, Check::IdZero(field))
    }

    /// Bytes behind their length.
    fn counted(&mut self, field: Field) -> Result<&'a [u8], Check> {
        let length = self.take(2, Check::PastInLength(field))?;
        self.take(usize::from(length[0]) * 256 + usize::from(length[1]), Check::Past(field))
    }

    /// The same, and they must be a string of section 1.5.3.
    fn string(&mut self, field: Field) -> Result<&'a [u8], Check> {
        let string = self.counted(field)?;
        flaw(string).map_or(Ok(string), |flaw| Err(Check::Broken(field, flaw)))
    }

    /// A string that becomes a topic. Whether it is too long counts only where nothing else is wrong, to the end.
    fn topic(&mut self, field: Field) -> Result<&'a [u8], Check> {
        let topic = self.string(field)?;
        if topic.len() > TOPIC_MAX {
            self.long.get_or_insert(field);
        }
        Ok(topic)
    }
}

fn refuse(wrong: bool, check: Check) -> Result<(), Check> {
    if wrong { Err(check) } else { Ok(()) }
}

/// What breaks section 1.5.3 first in a string, if anything. Rust's own test says where that is, and the bytes there
/// say what it is, by the table of RFC 3629, section 4.
fn flaw(string: &[u8]) -> Option<Flaw> {
    let good = std::str::from_utf8(string).map_or_else(|error| error.valid_up_to(), str::len);
    if string[..good].contains(&0) {
        return Some(Flaw::Zero);
    }
    let bad = &string[good..];
    let first = *bad.first()?;
    let more = match first {
        0x80..=0xbf | 0xf8..=0xff => return Some(Flaw::Lead),
        0xc0 | 0xc1 => return Some(Flaw::Overlong),
        0xf5..=0xf7 => return Some(Flaw::Above),
        0xf0.. => 3,
        0xe0.. => 2,
        _ => 1,
    };
    match (first, bad.get(1)) {
        (0xe0, Some(0x80..=0x9f)) | (0xf0, Some(0x80..=0x8f)) => Some(Flaw::Overlong),
        (0xed, Some(0xa0..=0xbf)) => Some(Flaw::Surrogate),
        (0xf4, Some(0x90..=0xbf)) => Some(Flaw::Above),
        _ => {
            let goes_on = bad[1..].iter().take(more).take_while(|byte| (0x80..=0xbf).contains(*byte)).count();
            Some(if 1 + goes_on == bad.len() { Flaw::CutOff } else { Flaw::Continuation })
        }
    }
}

/// Adds a message's seven lines, as a trace has them.
pub fn write(message: &Message, at: u64, clock_ok: bool, lines: &mut Vec<u8>) {
    let Message { kind, qos, topic, payload } = *message;
    let clock = if clock_ok { "ok" } else { "bad" };
    write!(lines, "at={at}\nclock={clock}\ntype={kind}\nqos={qos}\ntopic=").unwrap();
    hex(topic, lines);
    write!(lines, "\nsize={}\npayload=", payload.len().min(SIZE_MAX)).unwrap();
    hex(&payload[..payload.len().min(INSPECTED)], lines);
    lines.push(b'\n');
}

/// Adds bytes in hex.
pub fn hex(bytes: &[u8], lines: &mut Vec<u8>) {
    let digit = |half: u8| b"0123456789abcdef"[usize::from(half)];
    lines.extend(bytes.iter().flat_map(|byte| [digit(byte >> 4), digit(byte & 15)]));
}
