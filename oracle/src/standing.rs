//! Where the limit stands after a trace, as the archive's `hub_standing` writes it, against what the original does when
//! it is tried (tried.rs): the whole text, and that each time in it parts what is denied from what is allowed, by the
//! kind that stands there, whatever else a message has. Over an original that chooses rules by MQTT 3.1.1 it is
//! `hub_standing_standard`. What the places and topics were is counted.

use crate::hub::{self, HubTrace};
use crate::met::Met;
use crate::tally::Random;
use crate::tried::{self, SPENT, Stand, Tried};
use std::collections::{BTreeMap, BTreeSet};
use std::fmt::Write;
use trace::End;
use vs_mqtt_monitor::state::{self, Bucket, identity};
use vs_mqtt_monitor::{MqttMonitor, TopicAction, matcher, opened};
use vs_types_embedded::{MqttPacketType, fnv1a_hash};

const HUB_STANDING: fn(&[u8], &mut [u8]) -> HubTrace =
    if matcher::STANDARD { hub::standing_standard } else { hub::standing };

/// All tokens of a high rate are sent once in so many times, since they are many.
const SELDOM: usize = 150;

/// Of each topic some more is tried once in so many times.
const SOME: usize = 6;

/// Topics that the port would list otherwise than MQTT 3.1.1 has it, or only one of them.
const CHOSEN: [&str; 2] = ["a rate that the port would not give", "no rate, and the port would give one"];

/// What all traces together must have met.
const ALL: [&str; 44] = [
    "standing texts",
    "refused before a message",
    "refused behind messages",
    "whole without a message",
    "no place taken",
    "some places taken",
    "all places taken",
    "places of one time",
    "an older place behind a younger one",
    "places that gave way to newcomers",
    "a place later than the last message",
    "a place of more than one topic",
    "a place first named by another type",
    "a new topic passes at once",
    "a new topic passes by now",
    "a new topic passes later",
    "a new topic never passes",
    "a new topic of the trace's rules",
    "a new topic under a rule of its own",
    "held, a token left",
    "held, open by now",
    "held, open later",
    "held, never open",
    "held, a part of a token counts",
    "held at another rate than its rule's",
    "evicted, open by now",
    "evicted, open later",
    "evicted, never open",
    "a topic that another shares its bucket with",
    "no tokens",
    "one token",
    "all tokens of a rate",
    "shown as it is",
    "shown as it is beyond ASCII",
    "dots for a control character",
    "dots for what is no UTF-8",
    "tries denied by 5",
    "tries denied by 6",
    "tries allowed",
    "denied by 5 and tried again",
    "denied by 6 and tried again",
    "searched again after a try",
    "room that is just enough",
    "room too short",
];

/// All of it; where the original chooses rules as the port does there is nothing to choose otherwise.
pub fn all() -> impl Iterator<Item = &'static str> {
    ALL.into_iter().chain(CHOSEN.into_iter().filter(|_| matcher::STANDARD))
}

/// Room for the text after any trace, as include/hub.h says.
const ENOUGH: usize = 786_432;

/// A message, as far as it says where the limit stands.
struct Message {
    publish: bool,
    topic: Vec<u8>,
}

/// What is wrong with the port's standing text of a trace, if anything. What was tried is chosen by the text alone.
pub fn wrong(text: &[u8], met: &mut Met) -> Option<String> {
    let random = &mut Random(fnv1a_hash(text).into());
    let (mut monitor, mut messages, mut last) = (MqttMonitor::new(), Vec::new(), 0);
    let end = trace::run_on(&mut monitor, text, &mut Vec::new(), |_, message, _| {
        let publish = message.packet_type == MqttPacketType::Publish;
        messages.push(Message { publish, topic: message.topic_bytes().to_vec() });
        last = message.timestamp_us;
    });
    met.count("standing texts", 1);
    met.count("refused before a message", (end.number != 0 && messages.is_empty()).into());
    met.count("refused behind messages", (end.number != 0 && !messages.is_empty()).into());
    met.count("whole without a message", (end.number == 0 && messages.is_empty()).into());
    let mut limit = Limit { monitor: &monitor, last, messages: &messages, met, random, out: String::new() };
    let found = limit.text();
    let expected = limit.out;
    found.err().or_else(|| answered(text, end, expected.as_bytes(), met, random).err())
}

/// The whole text into a buffer that it fills, or with some bytes too many, and into ones that are too short.
fn answered(text: &[u8], end: End, expected: &[u8], met: &mut Met, random: &mut Random) -> Result<(), String> {
    let (length, spare) = (expected.len(), random.below(3) * random.below(100));
    if length > ENOUGH {
        return Err(format!("{length} bytes, more than are said to be enough"));
    }
    let wanted = HubTrace { number: end.number, line: end.line.into(), length };
    met.count("room that is just enough", (spare == 0).into());
    let mut room = vec![0xa5; length + spare];
    let answer = HUB_STANDING(text, &mut room);
    if answer != wanted || room[..length] != *expected {
        let mut room = vec![0xa5; ENOUGH];
        let answer = HUB_STANDING(text, &mut room);
        let said = String::from_utf8_lossy(&room[..answer.length.min(ENOUGH)]).into_owned();
        let expected = String::from_utf8_lossy(expected);
        return Err(format!("hub {answer:?}, expected {wanted:?}; {}", first_apart(&said, &expected)));
    }
    if room[length..].iter().any(|&byte| byte != 0xa5) {
        return Err("bytes behind the text were changed".into());
    }
    // The longest room that is too short, seldom others: the port reads the whole text to say so.
    let shorter = [length - 1, length / 2, 0];
    for &short in &shorter[..if random.one_in(SOME) { 3 } else { 1 }] {
        let mut room = vec![0xa5; length];
        let answer = HUB_STANDING(text, &mut room[..short]);
        if answer != (HubTrace { number: 28, line: 0, length: 0 }) || room.iter().any(|&byte| byte != 0xa5) {
            return Err(format!("with room for {short} of {length} bytes: hub {answer:?}, expected 28, 0, 0"));
        }
        met.count("room too short", 1);
    }
    Ok(())
}

/// The first line in which two texts differ, with the topic or place that it belongs to.
fn first_apart(hub: &str, rust: &str) -> String {
    let mut of = "";
    for (number, (hub, rust)) in (1..).zip(hub.lines().chain(["(the end)"]).zip(rust.lines().chain(["(the end)"]))) {
        if hub != rust {
            return format!("line {number} of the text, behind `{of}`: hub \"{hub}\", expected \"{rust}\"");
        }
        of = if rust.starts_with("topic=") || rust.starts_with("place=") { rust } else { of };
    }
    "the lines are alike".into()
}

/// The text in the making, over the monitor as the messages left it.
struct Limit<'a> {
    monitor: &'a MqttMonitor,
    /// The time of the last message.
    last: u64,
    messages: &'a [Message],
    met: &'a mut Met,
    random: &'a mut Random,
    out: String,
}

impl Limit<'_> {
    /// Writes the text; the error is something that the original did, and should not where the text is right.
    fn text(&mut self) -> Result<(), String> {
        let mut places: Vec<Bucket> = (0..32).filter_map(|place| tried::live(self.monitor, place)).collect();
        let taken = places.len();
        writeln!(self.out, "last={}\ntaken={taken}", self.last).unwrap();
        let ordered = places.is_sorted_by_key(|bucket| bucket.at);
        let way = if self.random.one_in(SOME / 2) { tried::giving_way(self.monitor, self.random) } else { None };
        self.met.count("places that gave way to newcomers", way.as_ref().map_or(0, |way| way.len() as u64));
        // A sort that is stable: of one time the lower place stays first.
        places.sort_by_key(|bucket| bucket.at);
        places = way.unwrap_or(places);
        self.met.count(["no place taken", "some places taken", "all places taken"][taken.div_ceil(32) + taken / 32], 1);
        self.met.count("an older place behind a younger one", (!ordered).into());
        self.met.count("places of one time", places.windows(2).any(|two| two[0].at == two[1].at).into());
        self.met.count("a place later than the last message", places.iter().any(|place| place.at > self.last).into());
        let mut first = BTreeMap::new();
        for (message, id) in self.messages.iter().map(|message| (message, identity(&message.topic))) {
            first.entry((id.hash, id.hash2, id.len)).or_insert_with(Vec::new).push((id, message));
        }
        for bucket in &places {
            let alike = first.get(&(bucket.id.hash, bucket.id.hash2, bucket.id.len)).into_iter().flatten();
            let alike = alike.filter(|(id, _)| *id == bucket.id).map(|(_, message)| *message);
            let named = alike.clone().next().ok_or("a place that no message of the trace could have taken")?;
            let published =
                alike.clone().find(|message| message.publish).is_some_and(|first| first.topic != named.topic);
            let other = alike.clone().any(|message| message.topic != named.topic);
            self.met.count("a place first named by another type", published.into());
            self.met.count("a place of more than one topic", other.into());
            self.name("place", &named.topic);
        }
        self.newcomer(taken);
        for (place, message) in self.messages.iter().enumerate() {
            let topic = &message.topic;
            let again = |message: &Message| message.publish && message.topic == *topic;
            if message.publish && !self.messages[place + 1..].iter().any(again) {
                self.topic(topic)?;
            }
        }
        Ok(())
    }

    /// A line in hex, and one for a reader.
    fn name(&mut self, key: &str, name: &[u8]) {
        write!(self.out, "{key}=").unwrap();
        name.iter().for_each(|byte| write!(self.out, "{byte:02x}").unwrap());
        let dotted = || name.iter().map(|&byte| if matches!(byte, 32..=126) { byte.into() } else { '.' }).collect();
        let (what, shown) = match std::str::from_utf8(name) {
            Ok(plain) if !plain.contains(char::is_control) => {
                (if plain.is_ascii() { "shown as it is" } else { "shown as it is beyond ASCII" }, plain.to_string())
            }
            Ok(_) => ("dots for a control character", dotted()),
            Err(_) => ("dots for what is no UTF-8", dotted()),
        };
        self.met.count(what, 1);
        write!(self.out, "\ntext={shown}\n").unwrap();
    }

    /// A time from which on something passes, and how long that is from the last message on.
    fn time(&mut self, key: &str, from: Option<u64>) {
        let Some(from) = from else {
            self.out += &format!("{key}=never\nwait=never\n");
            return;
        };
        let wait = from.saturating_sub(self.last);
        write!(self.out, "{key}={from}\nwait={}.{:06}\n", wait / 1_000_000, wait % 1_000_000).unwrap();
    }

    /// When a topic passes that no message named.
    fn newcomer(&mut self, taken: usize) {
        let (copy, topic);
        let (monitor, name) = match self.unnamed() {
            Some(name) => {
                topic = name;
                self.met.count("a new topic of the trace's rules", 1);
                (self.monitor, &topic[..])
            }
            None => {
                let named = |name: &&[u8]| self.messages.iter().any(|message| message.topic == *name);
                let names: [&[u8]; 3] = [b"new", b"newer", b"newest"];
                let name = names.into_iter().find(|name| !named(name)).expect("a name that no message has");
                copy = tried::ruled(self.monitor, name);
                self.met.count("a new topic under a rule of its own", u64::from(taken > 0));
                (&copy, name)
            }
        };
        let from = tried::from(monitor, name, self.last, self.random);
        let what = match from {
            Some(0) => "a new topic passes at once",
            Some(from) if from <= self.last => "a new topic passes by now",
            Some(_) => "a new topic passes later",
            None => "a new topic never passes",
        };
        self.met.count(what, 1);
        self.time("new", from);
    }

    /// A topic that no message has, no bucket is of, and that meets the limiter: some rule's pattern with its wildcards
    /// filled in.
    fn unnamed(&mut self) -> Option<Vec<u8>> {
        let named: BTreeSet<&[u8]> = self.messages.iter().map(|message| &message.topic[..]).collect();
        let level = format!("new {}", self.random.below(1000));
        for rule in (0..self.monitor.rule_count()).filter_map(|place| state::rule(self.monitor, place)) {
            let pattern = &rule.pattern[..rule.pattern_len as usize];
            let fill = |&byte: &u8| if matches!(byte, b'+' | b'#') { level.clone().into_bytes() } else { vec![byte] };
            let name: Vec<u8> = pattern.iter().flat_map(fill).collect();
            let meets = tried::rate(self.monitor, &name, self.random).is_some();
            if meets && !named.contains(&name[..]) && !tried::holds(self.monitor, &name, self.random) {
                return Some(name);
            }
        }
        None
    }

    /// The lines of a topic, if it meets the limiter, and what else is tried of it.
    fn topic(&mut self, topic: &[u8]) -> Result<(), String> {
        let Stand { kind, rate, from } = tried::stand(self.monitor, topic, self.last, self.random);
        if matcher::STANDARD && self.rate_in_port(topic) != rate {
            self.met.count(CHOSEN[usize::from(rate == 0)], 1);
        }
        if rate == 0 {
            return Ok(());
        }
        let tokens = tried::tokens(self.monitor, topic, self.last, SELDOM, self.random);
        self.name("topic", topic);
        write!(self.out, "rate={rate}\ntokens={tokens}\nkind={kind}\n").unwrap();
        self.time("from", from);
        self.met.count("no tokens", (tokens == 0).into());
        self.met.count("one token", (tokens == 1).into());
        self.met.count("all tokens of a rate", (tokens == rate.into()).into());
        let what = match (kind, from) {
            (SPENT, Some(0)) => "held, a token left",
            (SPENT, Some(from)) if from <= self.last => "held, open by now",
            (SPENT, Some(_)) => "held, open later",
            (SPENT, None) => "held, never open",
            // Where a place is free no topic was ever evicted.
            (_, Some(0)) => return Err(format!("a place was free, and not taken by {}", topic.escape_ascii())),
            (_, Some(from)) if from <= self.last => "evicted, open by now",
            (_, Some(_)) => "evicted, open later",
            (_, None) => "evicted, never open",
        };
        self.met.count(what, 1);
        self.count_bucket(topic, rate, from);
        self.tries(topic, rate, kind, from)
            .map_err(|wrong| format!("the original, topic {}: {wrong}", topic.escape_ascii()))
    }

    /// The rate that the port's choice of a rule would give a topic, 0 for none.
    fn rate_in_port(&self, topic: &[u8]) -> u16 {
        if topic.is_empty() || opened::contains_invalid_publish_char(topic) {
            return 0;
        }
        let mut rules = (0..self.monitor.rule_count()).filter_map(|place| state::rule(self.monitor, place));
        let chosen = rules.find(|rule| opened::topic_matches(topic, &rule.pattern[..rule.pattern_len as usize]));
        chosen.filter(|rule| rule.action == TopicAction::Allow).map_or(0, |rule| rule.rate)
    }

    /// Counts what a topic's bucket is.
    fn count_bucket(&mut self, topic: &[u8], rate: u16, from: Option<u64>) {
        let id = identity(topic);
        let Some(bucket) = (0..32).find_map(|place| tried::live(self.monitor, place).filter(|bucket| bucket.id == id))
        else {
            return;
        };
        let without = 1_000_000u64.div_ceil(bucket.capacity.into());
        let sooner = from.is_some_and(|from| 0 < from && from - bucket.at < without);
        self.met.count("held, a part of a token counts", sooner.into());
        self.met.count("held at another rate than its rule's", (bucket.capacity != rate).into());
        let shared = |message: &Message| message.topic != topic && identity(&message.topic) == id;
        let shared = self.random.one_in(SOME) && self.messages.iter().any(shared);
        self.met.count("a topic that another shares its bucket with", shared.into());
    }

    /// Tries a topic just before its time, at it, and at some others; then what a denied try does to that.
    fn tries(&mut self, topic: &[u8], rate: u16, kind: u32, from: Option<u64>) -> Result<(), String> {
        let monitor = self.monitor;
        // The first time at which it is allowed is behind the last one where it never is.
        let end = from.map_or(1 << 64, u128::from);
        let any = u128::from(self.random.next());
        let near = u128::from(self.random.next() >> self.random.below(64));
        for at in [end.wrapping_sub(1), end, end.saturating_sub(near), end + near, any, self.last.into()] {
            self.is(monitor, topic, at, end, kind)?;
        }
        if end == 0 {
            return Ok(());
        }
        let at = (end - 1).saturating_sub(u128::from(self.random.pick(&[0, near as u64, any as u64]))) as u64;
        let mut after = state::copy(monitor);
        let denied = tried::send(&mut after, topic, at, self.random);
        if denied != Tried::denied(kind) {
            return Err(format!("at {at} {denied:?}, expected a denial by {kind}"));
        }
        // A denial by 5 does not put it off. One by 6 gives it a place, and it waits there for the first token.
        let then = if kind == SPENT { end } else { u128::from(at) + u128::from(1_000_000u64.div_ceil(rate.into())) };
        let then = then.min(1 << 64);
        self.met.count(if kind == SPENT { "denied by 5 and tried again" } else { "denied by 6 and tried again" }, 1);
        for at in [then - 1, then] {
            self.is(&after, topic, at, then, SPENT).map_err(|wrong| format!("denied, then {wrong}"))?;
        }
        if self.random.one_in(SOME) {
            let again = tried::from(&after, topic, at, self.random).map_or(1 << 64, u128::from);
            self.met.count("searched again after a try", 1);
            if again != then {
                return Err(format!("denied at {at}, then from {again}, expected {then}"));
            }
        }
        Ok(())
    }

    /// Whether a topic is denied by this kind before a time, and allowed from it on; nothing is asked of what is no time.
    fn is(&mut self, monitor: &MqttMonitor, topic: &[u8], at: u128, from: u128, kind: u32) -> Result<(), String> {
        let Ok(time) = u64::try_from(at) else { return Ok(()) };
        let expected = if at < from { Tried::denied(kind) } else { Tried::ALLOWED };
        let found = tried::tried(monitor, topic, time, self.random);
        let name =
            ["tries allowed", "tries denied by 5", "tries denied by 6"][(expected.kind as usize).saturating_sub(4)];
        self.met.count(name, 1);
        if found == expected { Ok(()) } else { Err(format!("at {time} {found:?}, expected {expected:?}")) }
    }
}
