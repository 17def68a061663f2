//! What traces met on their way through the Rust original: kinds of alerts, ends, places that changed hands. A
//! comparison or a record that should reach all of them counts here, so that what it missed is a failure.

use std::collections::BTreeMap;
use trace::End;
use vs_mqtt_monitor::state::{self, Bucket};
use vs_mqtt_monitor::{MqttInspectResult, MqttMonitor, matcher, opened};
use vs_types_embedded::{MqttMessage, MqttPacketType};

pub const KINDS: [&str; 12] = [
    "kind 0", "kind 1", "kind 2", "kind 3", "kind 4", "kind 5", "kind 6", "kind 7", "kind 8", "kind 9", "kind 10",
    "kind 11",
];
pub const PLACES: [&str; 4] = ["bucket replaced", "bucket expired", "client replaced", "tracker replaced"];
/// What a message did to the bucket that it found (request C-17).
pub const STEPS: [&str; 4] =
    ["remainder kept", "remainder dropped", "time moved by a denied message", "token spent when the clock went back"];
const ENDS: [&str; 10] =
    ["end 0", "end 9", "end 21", "end 22", "end 23", "end 24", "end 25", "end 26", "end 27", "end 36"];

/// Messages that reach the choice of a rule, and for which the port would choose another than MQTT 3.1.1 does: because it
/// takes a dollar name, or because it refuses an empty last level.
const DOLLAR_NAMES: [&str; 3] = ["dollar name in Publish", "dollar name in Subscribe", "dollar name in Unsubscribe"];
const EMPTY_LEVELS: [&str; 3] =
    ["empty last level in Publish", "empty last level in Subscribe", "empty last level in Unsubscribe"];

/// How often each thing was met.
#[derive(Default)]
pub struct Met(BTreeMap<&'static str, u64>);

/// What all traces together must have met: 28 is counted by those who lend a room that is too short.
pub fn all() -> impl Iterator<Item = &'static str> {
    let more =
        ["end 28", "four alerts at once", "hash in an alert", "rule overwritten", "clock back", "traces", "messages"];
    KINDS[1..].iter().copied().chain(PLACES).chain(STEPS).chain(ENDS).chain(more).chain(choices())
}

/// What only monitors meet that choose rules by MQTT 3.1.1; nothing where the original is one that does not.
pub fn choices() -> impl Iterator<Item = &'static str> {
    DOLLAR_NAMES.into_iter().chain(EMPTY_LEVELS).filter(|_| matcher::STANDARD)
}

impl Met {
    pub fn count(&mut self, what: &'static str, times: u64) {
        *self.0.entry(what).or_default() += times;
    }

    pub fn times(&self, what: &str) -> u64 {
        self.0.get(what).copied().unwrap_or(0)
    }

    /// The answer of the Rust driver; what happened in it is counted.
    pub fn expected(&mut self, text: &[u8]) -> (End, Vec<u8>) {
        let mut out = Vec::new();
        let (mut before, mut held) = ([None; 64], Vec::new());
        let patterns = text.split(|&byte| byte == b'\n').filter(|line| line.starts_with(b"pattern="));
        let (mut last, rules) = (0, patterns.count());
        let end = trace::run_watched(text, &mut out, |monitor, message, result| {
            self.count("clock back", (message.timestamp_us < last).into());
            last = message.timestamp_us;
            self.count("rule overwritten", (monitor.rule_count() < rules).into());
            self.count("messages", 1);
            self.count_alerts(result);
            self.count_choice(monitor, message);
            before = self.count_places(before, monitor, result);
            held = self.count_step(&held, monitor, message, result);
        });
        self.count("traces", 1);
        let name = ENDS.iter().find(|name| name[4..] == end.number.to_string());
        self.count(name.expect("an end that documents 01 and 02 have"), 1);
        (end, out)
    }

    pub fn count_alerts(&mut self, result: &MqttInspectResult) {
        assert_eq!(result.alerts_dropped, 0);
        for alert in &result.alerts[..result.alert_count as usize] {
            self.count(KINDS[alert.source_id as usize], 1);
            self.count("hash in an alert", (alert.payload_hash.0 != [0; 32]).into());
        }
        self.count("four alerts at once", (result.alert_count == 4).into());
    }

    /// Counts a message for which the port would choose another rule: by the first that one of the matchers takes. Says
    /// whether it is such a message.
    pub fn count_choice(&mut self, monitor: &MqttMonitor, message: &MqttMessage) -> bool {
        let topic = message.topic_bytes();
        let kind = match message.packet_type {
            MqttPacketType::Publish if opened::contains_invalid_publish_char(topic) => return false,
            MqttPacketType::Publish => 0,
            MqttPacketType::Subscribe => 1,
            MqttPacketType::Unsubscribe => 2,
            _ => return false,
        };
        if !matcher::STANDARD || topic.is_empty() {
            return false;
        }
        let rules = (0..monitor.rule_count()).filter_map(|place| state::rule(monitor, place));
        let mut taken = rules.map(|rule| {
            let pattern = &rule.pattern[..rule.pattern_len as usize];
            (opened::topic_matches(topic, pattern), matcher::matches(topic, pattern))
        });
        let what = match taken.find(|&(port, standard)| port || standard) {
            Some((true, false)) if topic[0] == b'$' => DOLLAR_NAMES[kind],
            Some((false, true)) if topic.ends_with(b"/") => EMPTY_LEVELS[kind],
            _ => return false,
        };
        self.count(what, 1);
        true
    }

    /// Counts the places that went from one holder to another.
    pub fn count_places(
        &mut self,
        before: [opened::Holder; 64],
        monitor: &MqttMonitor,
        result: &MqttInspectResult,
    ) -> [opened::Holder; 64] {
        let now = opened::holders(monitor);
        let replaced = result.alerts.iter().any(|alert| alert.source_id == 6);
        for place in (0..64).filter(|&place| before[place].is_some() && before[place] != now[place]) {
            self.count(
                match place {
                    0..32 if replaced => "bucket replaced",
                    0..32 => "bucket expired",
                    32..48 => "client replaced",
                    _ => "tracker replaced",
                },
                1,
            );
        }
        now
    }

    /// Counts what a message did to the bucket that it found: the one that is another now, and its holder's as before.
    pub fn count_step(
        &mut self,
        before: &[Option<Bucket>],
        monitor: &MqttMonitor,
        message: &MqttMessage,
        result: &MqttInspectResult,
    ) -> Vec<Option<Bucket>> {
        let (now, after) = (message.timestamp_us, buckets(monitor));
        let both = before.iter().zip(&after).filter_map(|(before, after)| Some((before.as_ref()?, after.as_ref()?)));
        for (before, after) in both.filter(|(before, after)| before != after && before.id == after.id) {
            let elapsed = now.saturating_sub(before.at);
            let due = u128::from(elapsed) * u128::from(before.capacity) + u128::from(before.remainder);
            let denied = result.alerts.iter().any(|alert| alert.source_id == 5);
            self.count("remainder kept", (after.remainder > 0).into());
            self.count("remainder dropped", (due % 1_000_000 > 0 && after.remainder == 0).into());
            self.count("time moved by a denied message", (denied && before.at < after.at).into());
            self.count("token spent when the clock went back", (now < before.at && !denied).into());
            self.count("tokens above the capacity cut", (before.tokens > before.capacity).into());
        }
        after
    }
}

/// The buckets, place by place.
pub fn buckets(monitor: &MqttMonitor) -> Vec<Option<Bucket>> {
    (0..32).map(|place| state::bucket(monitor, place)).collect()
}
