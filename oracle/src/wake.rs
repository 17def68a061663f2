//! One run of packets after a trace through the archive's `hub_queue` against the second run (queued.rs): number, place,
//! counts, and every byte of the lent buffer, the bytes behind the records and behind the room too. Then two laws on the
//! archive's own answers: the bytes before the place alone are a whole run with the same records; and after 28 a second
//! call at the place, with the messages that were done in its trace, goes on with the records of one call. What the runs
//! met is counted (reached.rs).

use crate::hub::{self, HubQueue};
use crate::mqtt;
use crate::queued::{self, Ran, Time};
use crate::reached::Reached;
use crate::tally::{Class, show};
use trace::LONGEST;
use vs_mqtt_monitor::{MqttMonitor, state};

/// Bytes behind the room that must stay as they are.
const BEHIND: usize = 64;

/// More room than the records take.
const SPARE: usize = 40;

/// What a call brings, beside its room; and where the last of its packets begins, refused ones too, as they were made.
#[derive(Clone)]
pub struct Wake {
    pub trace: Vec<u8>,
    pub time: Time,
    pub packets: Vec<u8>,
    pub last: usize,
}

/// How a trace ended, and the original after it.
pub struct Begun {
    pub number: u32,
    pub monitor: MqttMonitor,
}

/// The classes so far, and what they met.
#[derive(Default)]
pub struct Task {
    pub classes: Vec<Class>,
    pub reached: Reached,
}

impl Task {
    /// Compares a run in each of the rooms that are chosen by what it comes to where nothing is too long.
    pub fn compare(&mut self, class: &mut Class, wake: &Wake, rooms: impl FnOnce(&Ran) -> Vec<usize>) {
        let begun = begun(&wake.trace);
        let full = expected(&begun, wake, usize::MAX).1;
        for room in rooms(&full) {
            if wrong(wake, &begun, &full, room).is_some() {
                let smaller = if class.clean() { shrink(wake) } else { wake.clone() };
                let size = smaller.trace.len() + smaller.packets.len();
                class.differ(size, || saved(&smaller, self.classes.len()));
            }
            class.agree();
            let ran = expected(&begun, wake, room).1;
            self.reached.count(wake, &begun, room, &ran, &full);
        }
    }
}

/// Every room that is worth lending: none, a byte, more than enough, the end of each packet's records and a byte before
/// it, and of a packet of several messages the end of the first record and of the last but one.
pub fn every_room(full: &Ran) -> Vec<usize> {
    let (mut rooms, mut from) = (vec![0, 1, full.records.len() + SPARE], 0);
    for &(to, end) in &full.packets {
        let ends: Vec<usize> = full.messages[from..to as usize].iter().map(|(_, _, end)| *end).collect();
        rooms.extend([end - 1, end, ends[0], ends[ends.len().saturating_sub(2)]]);
        from = to as usize;
    }
    rooms
}

/// The trace played on the original.
fn begun(text: &[u8]) -> Begun {
    let mut monitor = MqttMonitor::new();
    let number = trace::run_on(&mut monitor, text, &mut Vec::new(), |_, _, _| {}).number;
    Begun { number, monitor }
}

/// What the archive must hand back, and the run; that of no packets where the trace is refused.
fn expected(begun: &Begun, wake: &Wake, room: usize) -> (HubQueue, Ran) {
    let mut monitor = state::copy(&begun.monitor);
    let mut ran = Ran { number: begun.number, ..Ran::default() };
    if begun.number == 0 {
        ran = queued::run(&mut monitor, &wake.packets, wake.time, room);
    }
    let (inspected, total) = (monitor.total_inspected(), monitor.total_alerts());
    let Ran { number, place, done, .. } = ran;
    (HubQueue { number, place, done, length: ran.records.len(), inspected, total }, ran)
}

/// The same from the trace on: what must be handed back, and the records.
pub fn expected_of(wake: &Wake, room: usize) -> (HubQueue, Vec<u8>) {
    let (answer, ran) = expected(&begun(&wake.trace), wake, room);
    (answer, ran.records)
}

/// What a lent buffer holds beforehand: no record has such bytes, and neighbours differ.
fn kept(length: usize) -> Vec<u8> {
    (0..length).map(|place| 0x80 | place as u8).collect()
}

/// What the archive hands back, and the room with the bytes behind it.
fn called(wake: &Wake, room: usize) -> (HubQueue, Vec<u8>) {
    let mut lent = kept(room + BEHIND);
    let answer = hub::queue(&wake.trace, wake.time.0, wake.time.1, &wake.packets, &mut lent[..room]);
    (answer, lent)
}

/// What is wrong with the archive's answer into this room, if anything.
fn wrong(wake: &Wake, begun: &Begun, full: &Ran, room: usize) -> Option<String> {
    let (wanted, ran) = expected(begun, wake, room);
    let mut buffer = kept(room + BEHIND);
    buffer[..wanted.length].copy_from_slice(&ran.records);
    let (answer, lent) = called(wake, room);
    if answer == wanted && lent == buffer {
        let words = before_alone(wake, room, answer, &lent).or_else(|| again(wake, full, answer, &lent))?;
        return Some(format!("room for {room} bytes: {words}"));
    }
    let mut words = format!("room for {room} bytes: hub {answer:?}, expected {wanted:?}");
    if let Some(place) = (0..buffer.len()).find(|&place| lent[place] != buffer[place]) {
        let line = buffer[..place].iter().filter(|&&byte| byte == b'\n').count() + 1;
        let [found, meant] = [&lent, &buffer].map(|bytes| bytes[place..].iter().take(40).copied().collect::<Vec<u8>>());
        let (found, meant) = (found.escape_ascii(), meant.escape_ascii());
        words += &format!("; from byte {place} of the room on, line {line}: hub \"{found}\", expected \"{meant}\"");
    }
    Some(words)
}

/// The packets before the place are a whole run, with the same records in the same room.
fn before_alone(wake: &Wake, room: usize, answer: HubQueue, lent: &[u8]) -> Option<String> {
    if answer.number == 0 || answer.place == 0 {
        return None;
    }
    let before = Wake { packets: wake.packets[..answer.place].to_vec(), ..wake.clone() };
    let (whole, records) = called(&before, room);
    let wanted = HubQueue { number: 0, ..answer };
    (whole != wanted || records != lent)
        .then(|| format!("hub {answer:?}, and of the {} bytes before that place alone {whole:?}", answer.place))
}

/// After 28, a second call at the place goes on where the first one ended: its trace has the messages that were done,
/// and all that is another is that its records count from 1 again.
fn again(wake: &Wake, full: &Ran, answer: HubQueue, lent: &[u8]) -> Option<String> {
    let rest = rest(wake, answer.place).filter(|_| answer.number == 28)?;
    let (once, records) = called(wake, full.records.len());
    let (more, later) = called(&rest, full.records.len());
    let mut both = lent[..answer.length].to_vec();
    renumber(&later[..more.length.min(later.len())], answer.done, &mut both);
    let wanted =
        HubQueue { place: answer.place + more.place, done: answer.done + more.done, length: both.len(), ..more };
    (once != wanted || records.get(..both.len()) != Some(&both)).then(|| {
        format!("hub {answer:?}, then called again at that place {more:?}; at once {once:?}, or other records")
    })
}

/// What is left from a place on, after a trace that has the messages before it; nothing where that is too long for one.
pub fn rest(wake: &Wake, place: usize) -> Option<Wake> {
    let (mut trace, mut at) = (wake.trace.clone(), 0);
    let Wake { time, packets, .. } = wake;
    while at < place {
        let packet = mqtt::read(packets, at).ok()?;
        packet.messages.iter().for_each(|message| mqtt::write(message, time.0, time.1, &mut trace));
        at += packet.length;
    }
    (trace.len() <= LONGEST).then(|| Wake { trace, packets: packets[place..].to_vec(), ..*wake })
}

/// Adds records with so many more in each `n=`.
fn renumber(records: &[u8], more: u64, out: &mut Vec<u8>) {
    for line in records.split_inclusive(|&byte| byte == b'\n') {
        match line.strip_prefix(b"n=").and_then(|n| str::from_utf8(n).ok()?.trim_end().parse::<u64>().ok()) {
            Some(n) => out.extend(format!("n={}\n", n + more).into_bytes()),
            None => out.extend(line),
        }
    }
}

/// The first room in which the archive's answer is wrong, and what is wrong with it.
fn differs(wake: &Wake) -> Option<String> {
    let begun = begun(&wake.trace);
    let full = expected(&begun, wake, usize::MAX).1;
    every_room(&full).into_iter().find_map(|room| wrong(wake, &begun, &full, room))
}

/// Leaves out messages of the trace and packets, long runs first, for as long as something differs in some room.
fn shrink(wake: &Wake) -> Wake {
    let mut smaller = wake.clone();
    if differs(wake).is_none() {
        return smaller;
    }
    smaller.trace = fewer(groups(&wake.trace), |trace| differs(&Wake { trace, ..smaller.clone() }).is_some());
    smaller.packets = fewer(pieces(&wake.packets), |packets| differs(&Wake { packets, ..smaller.clone() }).is_some());
    smaller
}

/// A trace's opening, and message after message.
fn groups(text: &[u8]) -> Vec<Vec<u8>> {
    let lines: Vec<&[u8]> = text.split_inclusive(|&byte| byte == b'\n').collect();
    let opening = lines.iter().position(|line| line.starts_with(b"at=")).unwrap_or(lines.len());
    let messages = lines[opening..].chunks(7).map(<[&[u8]]>::concat);
    [lines[..opening].concat()].into_iter().chain(messages).collect()
}

/// Packet after packet, and what is behind the last that is taken.
fn pieces(mut packets: &[u8]) -> Vec<Vec<u8>> {
    let mut pieces = Vec::new();
    while !packets.is_empty() {
        let length = mqtt::read(packets, 0).map_or(packets.len(), |packet| packet.length);
        pieces.push(packets[..length].to_vec());
        packets = &packets[length..];
    }
    pieces
}

/// The bytes of as few pieces as still differ.
fn fewer(mut pieces: Vec<Vec<u8>>, differ: impl Fn(Vec<u8>) -> bool) -> Vec<u8> {
    let mut run = pieces.len();
    while run > 0 {
        let mut from = 0;
        while from + run <= pieces.len() {
            let fewer = [&pieces[..from], &pieces[from + run..]].concat();
            if differ(fewer.concat()) {
                pieces = fewer;
            } else {
                from += run;
            }
        }
        run /= 2;
    }
    pieces.concat()
}

/// Writes the input beside this program, and says where, what it is and what is wrong with the answer to it.
fn saved(wake: &Wake, name: usize) -> String {
    let path = std::env::current_exe().unwrap().with_file_name(format!("differs-queue-{name}.trace"));
    let packets = path.with_extension("mqtt");
    std::fs::write(&path, &wake.trace).unwrap();
    std::fs::write(&packets, &wake.packets).unwrap();
    let (at, clock) = (wake.time.0, if wake.time.1 { "ok" } else { "bad" });
    let (trace, shown) = (path.display(), show(&wake.packets[..wake.packets.len().min(300)]));
    let wrong = differs(wake).unwrap_or_default();
    format!(
        "{} of {} bytes after {trace}, at={at} clock={clock}: {wrong}; it begins with {shown}",
        packets.display(),
        wake.packets.len()
    )
}
