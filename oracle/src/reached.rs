//! What the runs of packets met: each end and where it came, each type, kind, size, time and room. Anything that was
//! never met is a failure.

use crate::checks::Check;
use crate::mqtt;
use crate::queued::Ran;
use crate::tally::Class;
use crate::wake::{self, Begun, Wake};
use std::collections::BTreeMap;

/// What must have been met, and of which numbers; no number where there is but one.
const ALL: [(&str, &[usize]); 46] = [
    ("runs that ended with", &[0, 28, 31, 32, 33]),
    ("traces refused with", &[9, 21, 22, 23, 24, 25, 26, 27, 36]),
    ("a refused trace with messages before its bad line", &[]),
    ("a refused trace before packets that would be refused", &[]),
    ("done packets of type", &[1, 2, 3, 4, 5, 6, 7, 8, 9, 10, 11, 12, 13, 14]),
    ("refused packets of a reserved type", &[0, 15]),
    ("alerts of kind", &[1, 2, 3, 4, 5, 6, 7, 8, 9, 10, 11]),
    ("four alerts at once", &[]),
    ("a hash in an alert", &[]),
    ("an empty run", &[]),
    ("whole runs of packets", &[1, 2, 60]),
    ("whole runs of 100 messages or more", &[]),
    ("at the first packet", &[28, 31, 32, 33]),
    ("in the middle, packets before and behind", &[28, 31, 32, 33]),
    ("at the last packet, others before", &[28, 31, 32, 33]),
    ("28 at a packet of type", &[1, 2, 3, 8, 10]),
    ("28 where a part of the packet's records would fit, of type", &[8, 10]),
    ("28 where all but a byte of the packet's records would fit", &[]),
    ("28 where not a byte is left", &[]),
    ("28 before a later packet that is", &[31, 32, 33]),
    ("no byte left, and the packet is", &[31, 32, 33]),
    ("28 at a Publish that would pass", &[]),
    ("28 at a message that would be denied with", &[1, 5, 6]),
    ("28 of a packet after which a shorter one would fit", &[]),
    ("28, and called again at its place", &[]),
    ("the bytes before the place alone", &[28, 31, 32, 33]),
    ("room of bytes", &[0, 1]),
    ("an exact fit of the whole run", &[]),
    ("room for all but a byte of the whole run", &[]),
    ("room to spare", &[]),
    ("a refused trace with no room", &[]),
    ("an empty run with no room", &[]),
    ("rules", &[0, 1, 32]),
    ("messages in the trace", &[0, 1, 20]),
    ("alerts in the trace, and more in the run", &[]),
    ("the ordinal has more digits in the run, at", &[10, 100]),
    ("a verdict that is good, or bad", &[0, 1]),
    ("the time goes back", &[]),
    ("time 0", &[]),
    ("time 2^64 - 1", &[]),
    ("a bucket emptied in the run", &[]),
    ("payload of bytes", &[0, 1, 255, 256, 257, 65_535, 65_536]),
    ("a name of 128 bytes in type", &[1, 3, 8, 10]),
    ("filters in one packet", &[1, 2, 40]),
    ("a packet of QoS", &[0, 1, 2]),
    ("runs that deny and allow", &[]),
];

/// How often each thing was met.
#[derive(Default)]
pub struct Reached(BTreeMap<(&'static str, usize), u64>);

impl Reached {
    fn met(&mut self, what: &'static str, which: usize) {
        *self.0.entry((what, which)).or_default() += 1;
    }

    fn met_if(&mut self, what: &'static str, met: bool) {
        if met {
            self.met(what, 0);
        }
    }

    /// Counts what one run into one room met; `full` is the same run with all the room that it takes.
    pub fn count(&mut self, wake: &Wake, begun: &Begun, room: usize, ran: &Ran, full: &Ran) {
        let Begun { number, monitor } = begun;
        if *number != 0 {
            self.met("traces refused with", *number as usize);
            self.met_if("a refused trace with messages before its bad line", monitor.total_inspected() > 0);
            let refused = mqtt::read(&wake.packets, 0).is_err() && !wake.packets.is_empty();
            self.met_if("a refused trace before packets that would be refused", refused);
            self.met_if("a refused trace with no room", room == 0);
            return;
        }
        self.met("runs that ended with", ran.number as usize);
        self.met("rules", monitor.rule_count());
        self.met("messages in the trace", monitor.total_inspected() as usize);
        self.met("room of bytes", room);
        self.met("a verdict that is good, or bad", usize::from(!wake.time.1));
        self.met_if("time 0", wake.time.0 == 0);
        self.met_if("time 2^64 - 1", wake.time.0 == u64::MAX);
        let last = wake.trace.split(|&byte| byte == b'\n').rfind(|line| line.starts_with(b"at="));
        let last = last.and_then(|line| str::from_utf8(&line[3..]).ok()?.parse().ok());
        self.met_if("the time goes back", last.is_some_and(|last: u64| wake.time.0 < last));
        self.count_messages(ran, monitor.total_alerts() > 0);
        match ran.number {
            0 => self.count_whole(wake, room, ran),
            28 => self.count_28(wake, room, ran, full),
            _ => self.count_refused(wake, room, ran),
        }
    }

    fn count_messages(&mut self, ran: &Ran, alerts_before: bool) {
        let (mut denied, mut allowed, mut alerts) = (false, false, false);
        for (message, result, _) in &ran.messages {
            let kind = message.packet_type as usize;
            self.met("done packets of type", kind);
            self.met("a packet of QoS", message.qos as usize);
            if message.topic_len == 128 {
                self.met("a name of 128 bytes in type", kind);
            }
            let kinds: Vec<usize> =
                result.alerts[..result.alert_count as usize].iter().map(|alert| alert.source_id as usize).collect();
            kinds.iter().for_each(|kind| self.met("alerts of kind", *kind));
            self.met_if("four alerts at once", kinds.len() == 4);
            self.met_if("a hash in an alert", result.alerts.iter().any(|alert| alert.payload_hash.0 != [0; 32]));
            // The bucket had a token for an earlier message of this topic in the same run.
            let topic = message.topic_bytes();
            let passed =
                || ran.messages.iter().any(|(other, result, _)| result.allowed && other.topic_bytes() == topic);
            self.met_if("a bucket emptied in the run", kinds.contains(&5) && passed());
            denied |= !result.allowed;
            allowed |= result.allowed;
            alerts |= !kinds.is_empty();
        }
        self.met_if("runs that deny and allow", denied && allowed);
        self.met_if("alerts in the trace, and more in the run", alerts_before && alerts);
        for digits in [10, 100] {
            if ran.done >= digits {
                self.met("the ordinal has more digits in the run, at", digits as usize);
            }
        }
    }

    fn count_whole(&mut self, wake: &Wake, room: usize, ran: &Ran) {
        self.met("whole runs of packets", ran.packets.len());
        self.met_if("whole runs of 100 messages or more", ran.done >= 100);
        self.met_if("an empty run", wake.packets.is_empty());
        self.met_if("an empty run with no room", wake.packets.is_empty() && room == 0);
        self.met_if("an exact fit of the whole run", room == ran.records.len() && room > 0);
        self.met_if("room to spare", room > ran.records.len());
        let mut place = 0;
        while let Ok(packet) = mqtt::read(&wake.packets, place) {
            match packet.messages[0].kind {
                mqtt::PUBLISH => self.met("payload of bytes", packet.messages[0].payload.len()),
                mqtt::SUBSCRIBE | mqtt::UNSUBSCRIBE => self.met("filters in one packet", packet.messages.len()),
                _ => {}
            }
            place += packet.length;
        }
    }

    fn count_28(&mut self, wake: &Wake, room: usize, ran: &Ran, full: &Ran) {
        let packet = mqtt::read(&wake.packets, ran.place).expect("a packet that is taken");
        let (left, kind) = (room - ran.records.len(), packet.messages[0].kind.into());
        self.count_place(wake, ran);
        self.met("28 at a packet of type", kind);
        self.met_if("28, and called again at its place", wake::rest(wake, ran.place).is_some());
        // What the packet's records take, where there is room.
        let (done, count) = (ran.done as usize, packet.messages.len());
        let ends: Vec<usize> =
            full.messages[done..done + count].iter().map(|(_, _, end)| end - ran.records.len()).collect();
        if ends[0] <= left {
            self.met("28 where a part of the packet's records would fit, of type", kind);
        }
        self.met_if("28 where all but a byte of the packet's records would fit", left + 1 == ends[count - 1]);
        self.met_if("28 where not a byte is left", left == 0 && room > 0);
        self.met_if("room for all but a byte of the whole run", room + 1 == full.records.len() && full.number == 0);
        let (_, result, _) = &full.messages[done];
        let kinds = result.alerts[..result.alert_count as usize].iter().map(|alert| alert.source_id);
        kinds.filter(|kind| [1, 5, 6].contains(kind)).for_each(|kind| {
            self.met("28 at a message that would be denied with", kind as usize);
        });
        self.met_if("28 at a Publish that would pass", kind == 3 && result.allowed);
        let behind = full.messages[done + count..].iter().zip(&full.messages[done + count - 1..]);
        let shorter = behind.into_iter().any(|(next, before)| next.2 - before.2 <= left);
        self.met_if("28 of a packet after which a shorter one would fit", shorter);
        if full.number != 0 {
            self.met("28 before a later packet that is", full.number as usize);
        }
    }

    fn count_refused(&mut self, wake: &Wake, room: usize, ran: &Ran) {
        let rest = &wake.packets[ran.place..];
        self.count_place(wake, ran);
        if room == ran.records.len() {
            self.met("no byte left, and the packet is", ran.number as usize);
        }
        if mqtt::read(rest, 0).is_err_and(|refused| refused.check == Check::ReservedType) {
            self.met("refused packets of a reserved type", usize::from(rest[0] >> 4));
        }
    }

    fn count_place(&mut self, wake: &Wake, ran: &Ran) {
        let number = ran.number as usize;
        match ran.place {
            0 => self.met("at the first packet", number),
            place if place < wake.last => self.met("in the middle, packets before and behind", number),
            _ => self.met("at the last packet, others before", number),
        }
        if ran.place > 0 {
            self.met("the bytes before the place alone", number);
        }
    }

    /// One class for all that a run of the comparison must have met.
    pub fn class(&self) -> Class {
        let mut class = Class::new("every end, type, kind, size, time and room");
        for (what, numbers) in ALL {
            for number in if numbers.is_empty() { &[0] } else { numbers } {
                let name = if numbers.is_empty() { what.into() } else { format!("{what} {number}") };
                class.seen(&name, self.0.get(&(what, *number)).copied().unwrap_or(0));
                class.agree();
            }
        }
        class
    }
}
