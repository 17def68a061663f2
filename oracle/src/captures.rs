//! What real clients sent: each NAME.mqtt of a folder, the bytes of one connection, against NAME.sent, which says what
//! the client was told to send. It has a line for each message, in their order:
//!
//!     publish qos=1 size=100000 payload=HEX topic=a/b
//!
//! The first word is connect, publish, subscribe, unsubscribe or, for other types, type-14; the size is the payload's
//! true length, the payload its first 256 bytes, and the topic is text to the line's end. A last line `stops 32` or
//! `stops 33` says that the next packet is refused with this number; what stands behind it is not looked at. A capture
//! without such a line is walked to its last byte. Lines that begin with `#` are comments. Neither reader has a part in
//! what these lines say.

use crate::hub::{self, HubPacket, HubPacketLines};
use crate::mqtt::{self, Packet};
use crate::tally::Class;
use std::path::{Path, PathBuf};

/// Who must have sent something, and the first words of the names of their captures.
const WRITERS: [(&str, &[&str]); 4] = [
    ("Paho for Python", &["mount", "python"]),
    ("Paho for C", &["c"]),
    ("node's mqtt", &["node"]),
    ("mosquitto", &["mosquitto"]),
];

/// The numbers that a capture may stop with, and one must with each.
const STOPS: [u32; 2] = [32, 33];

/// A class for each capture, and one for what must be among those that pass.
pub fn classes(folder: &Path) -> Vec<Class> {
    let (mut classes, mut passed) = (Vec::new(), Vec::new());
    for path in captures(folder) {
        let name = path.file_name().unwrap_or_default().to_string_lossy().into_owned();
        let mut class = Class::new(format!("capture {name}"));
        match capture(&mut class, &path) {
            Ok(stop) => passed.push((name, stop)),
            Err(wrong) => class.differ(0, || wrong),
        }
        classes.push(class);
    }
    let mut among = Class::new(format!("captures in {}", folder.display()));
    passed.iter().for_each(|_| among.agree());
    for (writer, words) in WRITERS {
        let its = passed.iter().filter(|(name, _)| name.split('-').next().is_some_and(|word| words.contains(&word)));
        among.seen(&format!("captures by {writer}"), its.count() as u64);
    }
    for number in STOPS {
        let such = passed.iter().filter(|(_, stop)| *stop == Some(number));
        among.seen(&format!("captures that stop with {number}"), such.count() as u64);
    }
    classes.push(among);
    classes
}

/// The captures, each without its ending. One that lacks either file is among them, and fails.
fn captures(folder: &Path) -> Vec<PathBuf> {
    let files = std::fs::read_dir(folder).into_iter().flatten().flatten().map(|file| file.path());
    let is_ours = |path: &PathBuf| path.extension().is_some_and(|ending| ending == "mqtt" || ending == "sent");
    let mut captures: Vec<PathBuf> = files.filter(is_ours).map(|path| path.with_extension("")).collect();
    captures.sort();
    captures.dedup();
    captures
}

/// The number that it stops with, if it does.
fn capture(class: &mut Class, path: &Path) -> Result<Option<u32>, String> {
    let read = |ending: &str| {
        let path = format!("{}.{ending}", path.display());
        std::fs::read(&path).map_err(|error| format!("{path}: {error}"))
    };
    compare(class, &read("mqtt")?, &read("sent")?)
}

/// Walks a capture by the archive's lengths, to its last byte or to where it stops.
fn compare(class: &mut Class, bytes: &[u8], sent: &[u8]) -> Result<Option<u32>, String> {
    let sent = std::str::from_utf8(sent).map_err(|error| format!("NAME.sent: {error}"))?;
    let mut sent: Vec<&str> = sent.lines().filter(|line| !line.starts_with('#')).collect();
    let stop = STOPS.into_iter().find(|number| sent.last().is_some_and(|line| *line == format!("stops {number}")));
    if stop.is_some() {
        sent.pop();
    }
    let (mut place, mut packets, mut messages) = (0, 0, 0);
    while place < bytes.len() && (stop.is_none() || messages < sent.len()) {
        packets += 1;
        let taken = taken(class, bytes, place, packets, &sent[messages..]);
        let (length, count) = taken.map_err(|wrong| format!("packet {packets} at byte {place}: {wrong}"))?;
        place += length;
        messages += count;
    }
    if let Some(line) = sent.get(messages) {
        return Err(format!("sent, and not in the capture: {line}"));
    }
    if let Some(number) = stop {
        packets += 1;
        refused(class, bytes, place, number).map_err(|wrong| format!("packet {packets} at byte {place}: {wrong}"))?;
        class.seen(&format!("refused with {number}"), 1);
    }
    class.seen("packets", packets);
    if messages > 0 {
        class.seen("messages", messages as u64);
    }
    Ok(stop)
}

/// The packet at a place must be taken by both readers, and its messages be the next that were sent: its length, and how
/// many they are. The packet's number in the capture gives them a time that no others have.
fn taken(class: &mut Class, bytes: &[u8], place: usize, n: u64, sent: &[&str]) -> Result<(usize, usize), String> {
    let HubPacket { number, length, messages: count } = hub::packet(bytes, place);
    if number != 0 {
        return Err(format!("number {number}, and NAME.sent does not stop with it here"));
    }
    let packet = mqtt::read(bytes, place).map_err(|refused| format!("the second reader: {:?}", refused.check))?;
    let second = (packet.length, packet.messages.len());
    if (length, count) != second {
        return Err(format!("length and messages {:?}, by the second reader {second:?}", (length, count)));
    }
    let (at, clock_ok) = (1_000_000 * n, n % 2 == 1);
    let ours = archive_lines(bytes, place, length, at, clock_ok)?;
    let second = second_lines(&packet, at, clock_ok)?;
    for (lines, whose) in [(&ours, "the archive"), (&second, "the second reader")] {
        if lines.len() != count {
            return Err(format!("{count} messages, and {} in the lines of {whose}", lines.len()));
        }
    }
    for (place, (ours, second)) in ours.iter().zip(&second).enumerate() {
        let line = sent.get(place).ok_or("more messages than were sent")?;
        let expected = expected(line, at, clock_ok).ok_or_else(|| format!("not a line of NAME.sent: {line}"))?;
        for (lines, whose) in [(ours, "the archive"), (second, "the second reader")] {
            if *lines != expected {
                let said = [lines, &expected].map(|lines| lines.replace('\n', " "));
                return Err(format!("sent {line}; {whose} has {}, expected {}", said[0], said[1]));
            }
            class.agree();
        }
    }
    Ok((length, count))
}

/// The packet at a place must be refused with this number by both readers, and nothing of it written.
fn refused(class: &mut Class, bytes: &[u8], place: usize, number: u32) -> Result<(), String> {
    const PAINTED: [u8; 1_000] = [0xa5; 1_000];
    let mut room = PAINTED;
    let second = mqtt::read(bytes, place).map_or_else(|refused| refused.check.number(), |_| 0);
    let said = (hub::packet(bytes, place), hub::packet_lines(bytes, place, 0, true, &mut room), second);
    let (length, messages, line) = (0, 0, 0);
    let expected = (HubPacket { number, length, messages }, HubPacketLines { number, line, length }, number);
    if said != expected {
        return Err(format!("expected {expected:?}; the archive and the second reader say {said:?}"));
    }
    if room != PAINTED {
        return Err(format!("refused with {number}, and the lent buffer is not as it was"));
    }
    (0..3).for_each(|_| class.agree());
    Ok(())
}

/// The lines of each message of a packet of so many bytes, by the archive.
fn archive_lines(bytes: &[u8], place: usize, length: usize, at: u64, clock_ok: bool) -> Result<Vec<String>, String> {
    // More than they need: the lines of a filter, which has two bytes or more, have 75 and two for each of its bytes.
    let mut room = vec![0; 1_000 + 100 * length];
    let HubPacketLines { number, length, .. } = hub::packet_lines(bytes, place, at, clock_ok, &mut room);
    if number == 0 { sevens(&room[..length]) } else { Err(format!("number {number} for its lines")) }
}

/// The same by the second reader.
fn second_lines(packet: &Packet, at: u64, clock_ok: bool) -> Result<Vec<String>, String> {
    let mut lines = Vec::new();
    packet.messages.iter().for_each(|message| mqtt::write(message, at, clock_ok, &mut lines));
    sevens(&lines)
}

/// Lines in groups of seven.
fn sevens(lines: &[u8]) -> Result<Vec<String>, String> {
    let lines = std::str::from_utf8(lines).map_err(|error| format!("its lines: {error}"))?;
    let lines: Vec<&str> = lines.split_inclusive('\n').collect();
    Ok(lines.chunks(7).map(<[&str]>::concat).collect())
}

/// The seven lines of what was sent, if this is how such a line must be.
fn expected(line: &str, at: u64, clock_ok: bool) -> Option<String> {
    let (head, topic) = line.split_once(" topic=")?;
    let [kind, qos, size, payload] = head.split(' ').collect::<Vec<_>>().try_into().ok()?;
    let kind = match kind {
        "connect" => 1,
        "publish" => 3,
        "subscribe" => 8,
        "unsubscribe" => 10,
        other => other.strip_prefix("type-")?.parse::<u8>().ok()?,
    };
    let qos: u8 = qos.strip_prefix("qos=")?.parse().ok()?;
    let size: usize = size.strip_prefix("size=")?.parse().ok()?;
    let payload = payload.strip_prefix("payload=")?;
    if payload.len() != 2 * size.min(256) {
        return None;
    }
    let topic: String = topic.bytes().map(|byte| format!("{byte:02x}")).collect();
    let (clock, size) = (if clock_ok { "ok" } else { "bad" }, size.min(65_535));
    Some(format!("at={at}\nclock={clock}\ntype={kind}\nqos={qos}\ntopic={topic}\nsize={size}\npayload={payload}\n"))
}
