//! What the Rust original answers to a line of a script, as crates/calls writes the port's answer. Five things are not
//! the original's, which has no such number, leaves such bytes or loses such parts: 10 for a state that no call hands
//! out, 9 for a lent topic or payload shorter than the part used, 36 for a pattern that is not UTF-8 (`trace::rules`),
//! zeros behind the pattern of a rule that is added, and a bucket's step with its remainder (oracle/opened/kept.rs);
//! docs/DIFFERENCES.md has them all. A line that is not understood, or a field that there is not, ends the program; so
//! does a call that chooses a rule, on a monitor that matches otherwise than the original that this is built over.
//! Where the limit stands is no call of the original: it is found out by trying on copies (tried.rs). Nor are its
//! settings as text, of which there are a second reader and writer (reload.rs), nor a run of packets (queued.rs), nor
//! which rules can never speak (silent.rs).

use crate::queued::{self, Ran};
use crate::reload::reload;
use crate::samples::Try;
use crate::silent::{self, RULES};
use crate::tally::Random;
use crate::tried::{self, Left, Stand};
use std::fmt::{Display, Formatter, Result as Written};
use trace::rules::{add_rule, refusal};
use vs_mqtt_monitor::state::{self, Id};
use vs_mqtt_monitor::{MqttInspectResult, MqttMonitor, QosPolicy, TopicAction, matcher};
use vs_types::VsError;
use vs_types_embedded::{MonitorReset, MqttMessage, MqttPacketType, MqttQoS, fnv1a_hash, opened};

/// The constructors of monitors that match as this original does, and the word for how that is.
pub const NEW: &str = if matcher::STANDARD { "new_standard" } else { "new" };
pub const NEW_DENY_DEFAULT: &str = if matcher::STANDARD { "new_standard_deny_default" } else { "new_deny_default" };
const MATCH: &str = if matcher::STANDARD { "standard" } else { "port" };

/// Fields that a script may set.
const FIELDS: [&str; 6] = ["next_id", "total_inspected", "total_alerts", "threshold", "window", "rule_count"];

/// Fields of a record that a script may set.
const RECORD_FIELDS: [&str; 12] = [
    "rule_live",
    "rule_length",
    "bucket_live",
    "bucket_prefix",
    "tokens",
    "remainder",
    "tracker_live",
    "tracker_prefix",
    "mean",
    "samples",
    "window_count",
    "window_next",
];

/// The longest topic that a message has.
const TOPIC_MAX: usize = 128;

/// The most bytes of packets that a line can bring, and of the room that it can lend.
pub const PACKETS_MAX: usize = 2_048;
pub const ROOM_MAX: usize = 8_192;

/// By a high rate all tokens are sent once in so many times.
const SELDOM: usize = 50;

/// The tables that a script may look at, with their places.
const TABLES: [(&str, usize); 4] = [("rules", 32), ("buckets", 32), ("trackers", 16), ("windows", 16)];

/// What stands behind a line.
pub enum Answer {
    Text(String),
    Done(u16),
    Refused(u32),
    Inspected(MqttMessage, MqttInspectResult),
    Stands(Stand),
    Left(Left),
    /// The text, and its last line; or number and line that refused it.
    Reloaded {
        text: Vec<u8>,
        number: u32,
        line: u64,
    },
    Queued(Ran),
    /// Of each rule the places of all earlier ones that cover it; and whether the other matcher says otherwise.
    Covered {
        by: Vec<Vec<usize>>,
        apart: bool,
    },
    LaterName(Option<Try>),
}

impl Display for Answer {
    fn fmt(&self, out: &mut Formatter) -> Written {
        match self {
            Answer::Text(text) => write!(out, "{text}"),
            Answer::Done(number) => write!(out, " done={number}"),
            Answer::Refused(number) => write!(out, " refused={number}"),
            Answer::Stands(Stand { kind, rate, from }) => {
                let from = from.map_or("never".into(), |from| from.to_string());
                write!(out, " kind={kind} rate={rate} from={from}")
            }
            Answer::Left(Left { kind, rate, tokens }) => write!(out, " kind={kind} rate={rate} tokens={tokens}"),
            Answer::Reloaded { text, number, line } => {
                match number {
                    0 => write!(out, " done={line} length={}", text.len())?,
                    _ => write!(out, " refused={number} line={line}")?,
                }
                String::from_utf8_lossy(text).lines().try_for_each(|line| write!(out, "\n   {line}"))
            }
            Answer::Queued(Ran { number, place, done, records, .. }) => {
                write!(out, " number={number} place={place} done={done} length={}", records.len())?;
                String::from_utf8_lossy(records).lines().try_for_each(|line| write!(out, "\n   {line}"))
            }
            Answer::Covered { by, .. } => {
                let first = |place: usize| by.get(place)?.first().map(|earlier| earlier + 1);
                (0..RULES).try_for_each(|place| write!(out, " {}", first(place).unwrap_or(0)))
            }
            Answer::LaterName(None) => write!(out, " none"),
            Answer::LaterName(Some(tried)) => write!(out, " name={}", hex(&tried.name)),
            Answer::Inspected(_, result) => {
                write!(out, " allowed={} alerts={}", result.allowed as u8, result.alert_count)?;
                for (place, alert) in result.alerts[..result.alert_count as usize].iter().enumerate() {
                    let (id, kind, severity) = (alert.id, alert.source_id, alert.severity as u32);
                    let (at, hash) = (alert.timestamp_us, hex(&alert.payload_hash.0));
                    write!(out, "\n   {place} id={id} kind={kind} severity={severity} at={at} hash={hash}")?;
                }
                Ok(())
            }
        }
    }
}

impl From<Result<u16, VsError>> for Answer {
    fn from(result: Result<u16, VsError>) -> Answer {
        match result {
            Ok(number) => Answer::Done(number),
            Err(error) => Answer::Refused(error as u32),
        }
    }
}

/// What stands behind a call's name.
struct Args<'a>(Vec<&'a str>);

impl Args<'_> {
    fn number(&self, k: usize) -> u64 {
        self.0[k].parse().expect(self.0[k])
    }

    /// A number that fits its field.
    fn small(&self, k: usize, bits: u32) -> u64 {
        let number = self.number(k);
        assert!(number >> bits == 0, "{number} has more than {bits} bits");
        number
    }

    fn bytes(&self, k: usize) -> Vec<u8> {
        bytes(self.0[k]).expect(self.0[k])
    }

    fn action(&self, k: usize) -> TopicAction {
        match self.0[k] {
            "allow" => TopicAction::Allow,
            "block" => TopicAction::Block,
            word => panic!("no action: {word}"),
        }
    }

    fn policy(&self, k: usize) -> QosPolicy {
        let level = |digit: &str| MqttQoS::from_raw(digit.parse().expect(digit)).expect(digit);
        match self.0[k] {
            "any" => QosPolicy::Any,
            word if word.starts_with("min") => QosPolicy::MinQoS(level(&word[3..])),
            word => QosPolicy::ExactQoS(level(word.strip_prefix("only").expect(word))),
        }
    }
}

/// Why number 10 refuses a state, if it does.
pub fn no_call_hands_out(monitor: &MqttMonitor) -> Option<&'static str> {
    if monitor.rule_count() > 32 {
        return Some("10: rule count over 32");
    }
    for place in 0..monitor.rule_count() {
        let Some(rule) = state::rule(monitor, place).filter(|rule| rule.live) else {
            return Some("10: a rule that counts is not live");
        };
        let Some(pattern) = rule.pattern.get(..rule.pattern_len as usize) else {
            return Some("10: pattern length over 64");
        };
        match refusal(pattern) {
            0 => {}
            36 => return Some("10: a pattern that is not UTF-8"),
            _ => return Some("10: a pattern that add_rule refuses with 9"),
        }
    }
    for bucket in (0..32).filter_map(|place| state::bucket(monitor, place)).filter(|bucket| bucket.live) {
        if bucket.id.prefix_len > 32 {
            return Some("10: a bucket's prefix length over 32");
        }
        if bucket.remainder > 999_999 {
            return Some("10: a bucket's remainder over 999,999");
        }
    }
    let long = |tracker: state::Tracker| tracker.live && tracker.id.prefix_len > 32;
    if (0..16).any(|place| state::tracker(monitor, place).is_some_and(long)) {
        return Some("10: a tracker's prefix length over 32");
    }
    let over = (0..16).any(|place| state::window(monitor, place).is_some_and(|window| window.count > 16));
    over.then_some("10: a window's count over 16")
}

/// The original, as a script leaves it.
pub struct Original {
    pub monitor: MqttMonitor,
    /// How the monitor matches, as its constructor or its text says.
    pub matching: &'static str,
    /// Rules that were added over bytes of another pattern: the original leaves those behind the new one's.
    pub stale: u64,
}

impl Original {
    pub fn new() -> Original {
        Original { monitor: MqttMonitor::new(), matching: "port", stale: 0 }
    }

    /// A line's answer: what any state takes first.
    pub fn answer(&mut self, line: &str) -> Answer {
        let mut words = line.split(' ');
        let name = words.next().unwrap_or_default();
        let args = &Args(words.map(|word| if word == "-" { "" } else { word }).collect());
        let monitor = &mut self.monitor;
        let mut text = String::new();
        match name {
            "new" | "new_deny_default" | "new_standard" | "new_standard_deny_default" => {
                let denies = name.ends_with("deny_default");
                *monitor = if denies { MqttMonitor::new_deny_default() } else { MqttMonitor::new() };
                self.matching = if name.starts_with("new_standard") { "standard" } else { "port" };
            }
            "counters" => {
                let (inspected, alerts) = (monitor.total_inspected(), monitor.total_alerts());
                text = format!(" inspected={inspected} alerts={alerts} rules={}", monitor.rule_count());
            }
            "state" | "rules" | "buckets" | "trackers" | "windows" | "all" => text = look(monitor, self.matching, name),
            "rule_pattern" => state::set_pattern(monitor, args.number(0) as usize, &args.bytes(1)),
            _ if FIELDS.contains(&name) => assert!(state::set(monitor, name, args.number(0)), "{name}"),
            _ if RECORD_FIELDS.contains(&name) => {
                assert!(state::set_at(monitor, name, args.number(0) as usize, args.number(1)), "{name}");
            }
            // A run says 10 as it says any other end.
            "queue" if no_call_hands_out(monitor).is_some() => {
                return Answer::Queued(Ran { number: 10, ..Ran::default() });
            }
            _ if no_call_hands_out(monitor).is_some() => return Answer::Refused(10),
            _ => return self.call(name, args),
        }
        Answer::Text(text)
    }

    /// A call on a state that calls hand out.
    fn call(&mut self, name: &str, args: &Args) -> Answer {
        let monitor = &mut self.monitor;
        let result = match name {
            "add_rule" => return self.add_rule(args),
            "remove_rule" => monitor.remove_rule(args.number(0) as usize).map(|()| 0),
            "swap_rules" => monitor.swap_rules(args.number(0) as usize, args.number(1) as usize).map(|()| 0),
            "clear_rules" => {
                monitor.clear_rules();
                Ok(0)
            }
            "validate_rules" => Ok(monitor.validate_rules()),
            "set_connect_storm_params" => {
                monitor.set_connect_storm_params(args.small(0, 8) as u8, args.number(1));
                Ok(0)
            }
            "remove_rate_bucket" => monitor.remove_rate_bucket(&args.bytes(0)).map(|()| 0),
            "remove_ewma_tracker" => monitor.remove_ewma_tracker(&args.bytes(0)).map(|()| 0),
            "reset_state" => {
                monitor.reset_state();
                Ok(0)
            }
            "reload" => return reload(self, args.small(0, 32) as u32),
            "standing" | "tokens_left" | "inspect" | "inspect_claimed" | "queue" | "covered_rules" | "later_name"
                if self.matching != MATCH =>
            {
                panic!("{name} of a monitor whose matching is {}", self.matching)
            }
            "standing" => return stands(monitor, &args.bytes(0), None),
            "tokens_left" => return stands(monitor, &args.bytes(0), Some(args.number(1))),
            "inspect" | "inspect_claimed" => return inspect(monitor, name == "inspect_claimed", args),
            "queue" => return queue(monitor, args),
            "covered_rules" => return silent::covered_rules(monitor),
            "later_name" => return silent::later_name(monitor, args.number(0), args.number(1)),
            _ => panic!("not understood: {name}"),
        };
        result.into()
    }

    /// A rule; what the original leaves behind a new pattern is made zero, as here.
    fn add_rule(&mut self, args: &Args) -> Answer {
        let (place, rate) = (self.monitor.rule_count(), args.small(3, 16) as u16);
        let result = add_rule(&mut self.monitor, &args.bytes(0), args.action(1), args.policy(2), rate);
        if self.monitor.rule_count() > place && state::clear_behind(&mut self.monitor, place) {
            self.stale += 1;
        }
        result.map_or_else(Answer::Refused, Answer::Done)
    }
}

/// Where the limit stands for a topic, or what a Publish of it would leave at a time.
fn stands(monitor: &MqttMonitor, topic: &[u8], at: Option<u64>) -> Answer {
    if topic.len() > TOPIC_MAX {
        return Err(VsError::InvalidInput).into();
    }
    let random = &mut Random(fnv1a_hash(topic).into());
    if let Some(at) = at {
        return Answer::Left(tried::left(monitor, topic, at, SELDOM, random));
    }
    let latest = (0..32).filter_map(|place| tried::live(monitor, place)).map(|bucket| bucket.at).max();
    Answer::Stands(tried::stand(monitor, topic, latest.unwrap_or(0), random))
}

/// A message: its result with every alert.
fn inspect(monitor: &mut MqttMonitor, claimed: bool, args: &Args) -> Answer {
    let (topic, payload) = (args.bytes(4), args.bytes(6));
    let (mut topic_len, mut payload_len) = (topic.len(), payload.len());
    if claimed {
        (topic_len, payload_len) = (args.small(7, 8) as usize, args.small(8, 16) as usize);
    }
    if topic.len() < topic_len.min(128) || payload.len() < payload_len.min(256) {
        return Err(VsError::InvalidInput).into();
    }
    let mut message = MqttMessage {
        timestamp_us: args.number(0),
        packet_type: MqttPacketType::from_raw(args.number(2) as u8).expect("a packet type"),
        qos: MqttQoS::from_raw(args.number(3) as u8).expect("a level"),
        topic_len: topic_len as u8,
        payload_len: args.small(5, 16) as u16,
        payload_inspectable_len: payload_len as u16,
        ..MqttMessage::default()
    };
    message.topic[..topic.len()].copy_from_slice(&topic);
    message.payload[..payload.len()].copy_from_slice(&payload);
    opened::set_verdict(args.0[1] == "ok");
    let result = monitor.inspect(&message);
    Answer::Inspected(message, result)
}

/// A run of packets, with one time and one verdict for all, into so much room.
fn queue(monitor: &mut MqttMonitor, args: &Args) -> Answer {
    let (time, room, packets) = ((args.number(0), args.0[1] == "ok"), args.number(2) as usize, args.bytes(3));
    assert!(packets.len() <= PACKETS_MAX && room <= ROOM_MAX, "{} bytes into {room}", packets.len());
    Answer::Queued(queued::run(monitor, &packets, time, room))
}

pub fn hex(bytes: &[u8]) -> String {
    let digit = |n: u8| char::from(b"0123456789abcdef"[n as usize]);
    bytes.iter().flat_map(|byte| [digit(byte / 16), digit(byte % 16)]).collect()
}

/// The bytes that stand in hex, if they do.
pub fn bytes(digits: &str) -> Option<Vec<u8>> {
    let byte = |i| u8::from_str_radix(digits.get(i..i + 2)?, 16).ok();
    (0..digits.len()).step_by(2).map(byte).collect()
}

/// Bytes in hex up to the last that is not zero.
fn used(bytes: &[u8]) -> String {
    let used = bytes.iter().rposition(|&byte| byte != 0).map_or(0, |last| last + 1);
    hex(&bytes[..used])
}

pub fn action_word(action: TopicAction) -> &'static str {
    if action == TopicAction::Allow { "allow" } else { "block" }
}

pub fn policy_words(policy: QosPolicy) -> String {
    match policy {
        QosPolicy::Any => "any".into(),
        QosPolicy::MinQoS(level) => format!("min={}", level as u8),
        QosPolicy::ExactQoS(level) => format!("only={}", level as u8),
    }
}

/// A topic identity, as it stands in a record.
pub fn id_words(id: &Id) -> String {
    let (first, bytes) = (id.prefix_len, used(&id.prefix));
    format!("hash={} hash2={} len={} suffix={} first={first} bytes={bytes}", id.hash, id.hash2, id.len, id.suffix_hash)
}

/// The record of a table at a place, unless it is as a free one.
fn record(monitor: &MqttMonitor, table: &str, place: usize) -> Option<String> {
    Some(match table {
        "rules" => {
            let rule = state::rule(monitor, place)?;
            let (live, pattern, length) = (rule.live as u8, used(&rule.pattern), rule.pattern_len);
            let (action, policy) = (action_word(rule.action), policy_words(rule.policy));
            format!("live={live} pattern={pattern} length={length} action={action} {policy} rate={}", rule.rate)
        }
        "buckets" => {
            let state::Bucket { live, tokens, capacity, remainder, at, id } = state::bucket(monitor, place)?;
            let (live, id) = (live as u8, id_words(&id));
            format!("live={live} tokens={tokens} capacity={capacity} remainder={remainder} at={at} {id}")
        }
        "trackers" => {
            let state::Tracker { live, mean, samples, at, id } = state::tracker(monitor, place)?;
            format!("live={} mean={mean} samples={samples} at={at} {}", live as u8, id_words(&id))
        }
        _ => {
            let state::Window { hash, hash2, stamps, count, next, last_seen } = state::window(monitor, place)?;
            let stamps: String = stamps.iter().map(|stamp| format!(" {stamp}")).collect();
            format!("live=1 count={count} next={next} at={last_seen} hash={hash} hash2={hash2} stamps{stamps}")
        }
    })
}

/// What stands in no table, in the places of one that are not free, or all of it.
fn look(monitor: &MqttMonitor, matching: &str, what: &str) -> String {
    let mut text = String::new();
    if what == "state" || what == "all" {
        let (action, threshold, window, next_id) = state::settings(monitor);
        let (action, rules) = (action_word(action), monitor.rule_count());
        let (inspected, alerts) = (monitor.total_inspected(), monitor.total_alerts());
        text += &format!(" action={action} match={matching} threshold={threshold} window={window} next_id={next_id}");
        text += &format!(" inspected={inspected} alerts={alerts} rules={rules}");
    }
    for (table, places) in TABLES {
        if what == "all" {
            text += &format!("\n  {table}");
        }
        if what == table || what == "all" {
            let records = (0..places).filter_map(|place| Some((place, record(monitor, table, place)?)));
            records.for_each(|(place, record)| text += &format!("\n   {place} {record}"));
        }
    }
    text
}
