//! Where the limit stands for a topic, found out by trying: Publish messages are sent to copies of the original, which
//! itself stays as it is. No number of a bucket is reckoned with, so that nothing of the port's formulas can be here.

use crate::tally::Random;
use vs_mqtt_monitor::state::{self, Bucket, Id};
use vs_mqtt_monitor::{MqttInspectResult, MqttMonitor, QosPolicy, TopicAction};
use vs_types_embedded::{MonitorReset, MqttMessage, MqttPacketType, MqttQoS, opened};

/// Kinds of the limiter: a spent bucket, and a newcomer that found no place.
pub const SPENT: u32 = 5;
pub const NO_PLACE: u32 = 6;

/// Up to this rate all tokens are counted one by one.
const COUNTED: u16 = 2000;

/// Kinds that deny a Publish: those two, and an empty topic, a blocked one, and one with a zero byte or a wildcard.
const DENYING: [u32; 5] = [SPENT, NO_PLACE, 2, 3, 9];

/// What became of a Publish: whether it was allowed, and the kind that denied it, 0 for none.
#[derive(Clone, Copy, Debug, PartialEq, Eq)]
pub struct Tried {
    pub allowed: bool,
    pub kind: u32,
}

impl Tried {
    pub const ALLOWED: Tried = Tried { allowed: true, kind: 0 };

    pub const fn denied(kind: u32) -> Tried {
        Tried { allowed: false, kind }
    }

    fn of(result: &MqttInspectResult) -> Tried {
        let mut alerts = result.alerts[..result.alert_count as usize].iter();
        let denied = alerts.find(|alert| DENYING.contains(&alert.source_id));
        Tried { allowed: result.allowed, kind: denied.map_or(0, |alert| alert.source_id) }
    }
}

/// A Publish of a topic. All that must not matter is random: QoS, size, payload, and the verdict on the clock.
fn message(topic: &[u8], at: u64, random: &mut Random) -> MqttMessage {
    let any = random.next();
    opened::set_verdict(any & 1 == 0);
    let mut message = MqttMessage {
        packet_type: MqttPacketType::Publish,
        qos: MqttQoS::from_raw((any >> 1) as u8 % 3).expect("a level"),
        topic_len: topic.len() as u8,
        payload_len: if any & 64 == 0 { 0 } else { (any >> 16) as u16 },
        payload_inspectable_len: (any >> 8) as u16 % 4,
        timestamp_us: at,
        ..MqttMessage::default()
    };
    message.topic[..topic.len()].copy_from_slice(topic);
    message.payload[..3].copy_from_slice(&any.to_le_bytes()[4..7]);
    message
}

/// A Publish of a topic to this monitor.
pub fn send(monitor: &mut MqttMonitor, topic: &[u8], at: u64, random: &mut Random) -> Tried {
    Tried::of(&monitor.inspect(&message(topic, at, random)))
}

/// The same to a copy.
pub fn tried(monitor: &MqttMonitor, topic: &[u8], at: u64, random: &mut Random) -> Tried {
    send(&mut state::copy(monitor), topic, at, random)
}

/// The earliest time from which on it is allowed, if it ever is: halving between a time at which it is denied and one at
/// which it is allowed. Most answers lie near some time, by a second or some minutes, so those are tried first.
pub fn from(monitor: &MqttMonitor, topic: &[u8], near: u64, random: &mut Random) -> Option<u64> {
    let mut allowed = |at| tried(monitor, topic, at, random).allowed;
    if allowed(0) {
        return Some(0);
    }
    if !allowed(u64::MAX) {
        return None;
    }
    let (mut denied, mut open) = (0, u64::MAX);
    for distance in [0, 1 << 20, 1 << 29] {
        for at in [near.saturating_sub(distance), near.saturating_add(distance)] {
            if denied < at && at < open {
                *(if allowed(at) { &mut open } else { &mut denied }) = at;
            }
        }
    }
    while open - denied > 1 {
        let middle = denied + (open - denied) / 2;
        *(if allowed(middle) { &mut open } else { &mut denied }) = middle;
    }
    Some(open)
}

/// The rate under which a topic meets the limiter, if it does: what the bucket holds that it is given where no place is
/// taken.
pub fn rate(monitor: &MqttMonitor, topic: &[u8], random: &mut Random) -> Option<u16> {
    let mut fresh = state::copy(monitor);
    fresh.reset_state();
    send(&mut fresh, topic, 0, random);
    live(&fresh, 0).map(|bucket| bucket.capacity)
}

/// Whether a topic that meets the limiter holds a bucket: no place changes hands when it comes.
pub fn holds(monitor: &MqttMonitor, topic: &[u8], random: &mut Random) -> bool {
    let mut copy = state::copy(monitor);
    send(&mut copy, topic, 0, random);
    (0..32).all(|place| holder(monitor, place) == holder(&copy, place))
}

/// How many Publish messages of a topic at one time are allowed, one after the other. By a high rate mostly just one is
/// sent, and the rest is what its bucket then has; all are sent once in `seldom` times.
pub fn tokens(monitor: &MqttMonitor, topic: &[u8], at: u64, seldom: usize, random: &mut Random) -> u64 {
    let mut copy = state::copy(monitor);
    let message = message(topic, at, random);
    if !copy.inspect(&message).allowed {
        return 0;
    }
    let used =
        (0..32).find_map(|place| live(&copy, place).filter(|bucket| live(monitor, place).as_ref() != Some(bucket)));
    let used = used.expect("the bucket that gave a token");
    if used.capacity > COUNTED && !random.one_in(seldom) {
        return 1 + u64::from(used.tokens);
    }
    let mut passed = 1;
    while copy.inspect(&message).allowed {
        passed += 1;
    }
    passed
}

/// Where the limit stands for a topic.
pub struct Stand {
    /// The kind that denies it: before its time where it meets the limiter, else at any time; 0 where nothing denies it.
    pub kind: u32,
    /// The rate under which it meets the limiter, 0 where it does not.
    pub rate: u16,
    /// When it is allowed, if ever.
    pub from: Option<u64>,
}

/// All of that; most answers lie near some time.
pub fn stand(monitor: &MqttMonitor, topic: &[u8], near: u64, random: &mut Random) -> Stand {
    if let Some(rate) = rate(monitor, topic, random) {
        let kind = if holds(monitor, topic, random) { SPENT } else { NO_PLACE };
        return Stand { kind, rate, from: from(monitor, topic, near, random) };
    }
    let [first, last] = [0, u64::MAX].map(|at| tried(monitor, topic, at, random));
    assert_eq!(first, last, "without the limiter the time does not matter");
    Stand { kind: first.kind, rate: 0, from: first.allowed.then_some(0) }
}

/// What a Publish at a time leaves.
pub struct Left {
    /// The kind that denies it, 0 where it passes.
    pub kind: u32,
    /// The rate under which it meets the limiter, 0 where it does not.
    pub rate: u16,
    /// By a rate, how many more would pass at that time, one after the other.
    pub tokens: u64,
}

/// All of that; all tokens of a high rate are sent once in `seldom` times.
pub fn left(monitor: &MqttMonitor, topic: &[u8], at: u64, seldom: usize, random: &mut Random) -> Left {
    let (kind, rate) = (tried(monitor, topic, at, random).kind, rate(monitor, topic, random).unwrap_or(0));
    let passed = if rate > 0 { tokens(monitor, topic, at, seldom, random) } else { 0 };
    Left { kind, rate, tokens: passed.saturating_sub(1) }
}

/// The live buckets in the order in which they give way to newcomers, which come one after another and are younger than
/// all of them. Nothing where none can be younger, and a newcomer might have to give way itself.
pub fn giving_way(monitor: &MqttMonitor, random: &mut Random) -> Option<Vec<Bucket>> {
    let mut left: Vec<(usize, Bucket)> = (0..32).filter_map(|place| Some((place, live(monitor, place)?))).collect();
    let latest = left.iter().map(|(_, bucket)| bucket.at).max().unwrap_or(0);
    let now = latest.checked_add(1)?;
    let (mut copy, mut gone) = (ruled(monitor, b"newcomer/+"), Vec::new());
    let mut newcomers = 0..64;
    while !left.is_empty() {
        let name = format!("newcomer/{}", newcomers.next().expect("each newcomer takes a place"));
        send(&mut copy, name.as_bytes(), now, random);
        let taken = left.iter().position(|(place, bucket)| holder(&copy, *place).as_ref() != Some(&bucket.id));
        gone.extend(taken.map(|taken| left.remove(taken).1));
    }
    Some(gone)
}

/// A copy with all that it has, but under one rule alone, which has this pattern.
pub fn ruled(monitor: &MqttMonitor, pattern: &[u8]) -> MqttMonitor {
    let mut copy = state::copy(monitor);
    copy.clear_rules();
    copy.add_rule(pattern, TopicAction::Allow, QosPolicy::Any, 1).expect("a pattern");
    copy
}

/// The bucket at a place, if it is live.
pub fn live(monitor: &MqttMonitor, place: usize) -> Option<Bucket> {
    state::bucket(monitor, place).filter(|bucket| bucket.live)
}

fn holder(monitor: &MqttMonitor, place: usize) -> Option<Id> {
    live(monitor, place).map(|bucket| bucket.id)
}
