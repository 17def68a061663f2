// Appended by oracle/build to a copy of embedded/mqtt-monitor: what stands in the private fields, and setting them to
// what it would take too many calls to reach.

/// The private state of a monitor.
pub mod state {
    use super::{EwmaTracker, MAX_CONNECT_WINDOW, MqttMonitor, QosPolicy, RateBucket, TopicAction, TopicRule, step};

    /// What tells the topic of a bucket or tracker from others.
    #[derive(PartialEq)]
    pub struct Id {
        pub hash: u32,
        pub hash2: u32,
        pub len: u16,
        pub suffix_hash: u32,
        pub prefix_len: u8,
        pub prefix: [u8; 32],
    }

    /// A rule.
    #[derive(PartialEq)]
    pub struct Rule {
        pub live: bool,
        pub pattern: [u8; 64],
        pub pattern_len: u8,
        pub action: TopicAction,
        pub policy: QosPolicy,
        pub rate: u16,
    }

    /// A bucket.
    #[derive(PartialEq)]
    pub struct Bucket {
        pub live: bool,
        pub tokens: u16,
        pub capacity: u16,
        pub remainder: u32,
        pub at: u64,
        pub id: Id,
    }

    /// A tracker.
    #[derive(PartialEq)]
    pub struct Tracker {
        pub live: bool,
        pub mean: u32,
        pub samples: u8,
        pub at: u64,
        pub id: Id,
    }

    /// A client, which is always live.
    pub struct Window {
        pub hash: u32,
        pub hash2: u32,
        pub stamps: [u64; MAX_CONNECT_WINDOW],
        pub count: u8,
        pub next: u8,
        pub last_seen: u64,
    }

    /// What tells a topic from others, as a bucket or tracker of it would have it.
    pub fn identity(topic: &[u8]) -> Id {
        let first = topic.len().min(32);
        Id {
            hash: super::fnv1a_hash(topic),
            hash2: super::djb2_hash(topic),
            len: topic.len() as u16,
            suffix_hash: super::suffix_hash(topic),
            prefix_len: first as u8,
            prefix: MqttMonitor::make_topic_prefix(topic),
        }
    }

    /// A monitor like another: something can be tried on it, and the other stays as it is.
    pub fn copy(monitor: &MqttMonitor) -> MqttMonitor {
        MqttMonitor { ..*monitor }
    }

    /// What stands in no table: default, CONNECT threshold and window, next id.
    pub fn settings(monitor: &MqttMonitor) -> (TopicAction, u8, u64, u64) {
        let m = monitor;
        (m.default_action, m.connect_storm_threshold, m.connect_storm_window_us, m.next_alert_id)
    }

    /// A record, unless it is as a free one, live or not.
    fn held<T: PartialEq>(record: T, free: T) -> Option<T> {
        (record != free).then_some(record)
    }

    /// The rule at a place, if one stands there.
    pub fn rule(monitor: &MqttMonitor, place: usize) -> Option<Rule> {
        let all = |rule: &TopicRule| Rule {
            live: rule.active,
            pattern: rule.pattern,
            pattern_len: rule.pattern_len,
            action: rule.action,
            policy: rule.qos_policy,
            rate: rule.max_rate_per_sec,
        };
        held(all(&monitor.rules[place]), all(&TopicRule::empty()))
    }

    /// The bucket at a place, if one stands there.
    pub fn bucket(monitor: &MqttMonitor, place: usize) -> Option<Bucket> {
        let all = |bucket: &RateBucket| Bucket {
            live: bucket.active,
            tokens: bucket.tokens,
            capacity: bucket.capacity,
            remainder: step::remainder(bucket),
            at: bucket.last_refill_us,
            id: Id {
                hash: bucket.topic_hash,
                hash2: bucket.topic_hash2,
                len: bucket.topic_len,
                suffix_hash: bucket.topic_suffix_hash,
                prefix_len: bucket.topic_prefix_len,
                prefix: bucket.topic_prefix,
            },
        };
        held(all(&monitor.rate_buckets[place]), all(&RateBucket::empty()))
    }

    /// The tracker at a place, if one stands there.
    pub fn tracker(monitor: &MqttMonitor, place: usize) -> Option<Tracker> {
        let all = |tracker: &EwmaTracker| Tracker {
            live: tracker.active,
            mean: tracker.mean_x256,
            samples: tracker.sample_count,
            at: tracker.last_update_us,
            id: Id {
                hash: tracker.topic_hash,
                hash2: tracker.topic_hash2,
                len: tracker.topic_len,
                suffix_hash: tracker.topic_suffix_hash,
                prefix_len: tracker.topic_prefix_len,
                prefix: tracker.topic_prefix,
            },
        };
        held(all(&monitor.ewma_trackers[place]), all(&EwmaTracker::empty()))
    }

    /// The client at a place, if one stands there.
    pub fn window(monitor: &MqttMonitor, place: usize) -> Option<Window> {
        monitor.client_hashes[place].map(|entry| Window {
            hash: entry.client_hash,
            hash2: entry.client_hash2,
            stamps: entry.timestamps,
            count: entry.count,
            next: entry.write_idx,
            last_seen: entry.last_seen_us,
        })
    }

    /// Sets the bytes behind a rule's pattern to zero; false where all are.
    pub fn clear_behind(monitor: &mut MqttMonitor, place: usize) -> bool {
        let rule = &mut monitor.rules[place];
        let behind = &mut rule.pattern[rule.pattern_len as usize..];
        let stale = behind.iter().any(|&byte| byte != 0);
        behind.fill(0);
        stale
    }

    /// Sets the bytes and the length of the rule at a place.
    pub fn set_pattern(monitor: &mut MqttMonitor, place: usize, pattern: &[u8]) {
        let rule = &mut monitor.rules[place];
        rule.pattern = [0; 64];
        rule.pattern[..pattern.len()].copy_from_slice(pattern);
        rule.pattern_len = pattern.len() as u8;
    }

    /// Sets a field that stands in no table; false where there is none of this name.
    pub fn set(monitor: &mut MqttMonitor, field: &str, value: u64) -> bool {
        match field {
            "next_id" => monitor.next_alert_id = value,
            "total_inspected" => monitor.total_inspected = value,
            "total_alerts" => monitor.total_alerts = value,
            "threshold" => monitor.connect_storm_threshold = value as u8,
            "window" => monitor.connect_storm_window_us = value,
            "rule_count" => monitor.rule_count = value as u16,
            _ => return false,
        }
        true
    }

    /// Sets a field of the record at a place, of a client only where there is one; false where no field has this name.
    pub fn set_at(monitor: &mut MqttMonitor, field: &str, place: usize, value: u64) -> bool {
        match field {
            "rule_live" => monitor.rules[place].active = value == 1,
            "rule_length" => monitor.rules[place].pattern_len = value as u8,
            "bucket_live" => monitor.rate_buckets[place].active = value == 1,
            "bucket_prefix" => monitor.rate_buckets[place].topic_prefix_len = value as u8,
            "tokens" => monitor.rate_buckets[place].tokens = value as u16,
            "remainder" => return step::set_remainder(&mut monitor.rate_buckets[place], value as u32),
            "tracker_live" => monitor.ewma_trackers[place].active = value == 1,
            "tracker_prefix" => monitor.ewma_trackers[place].topic_prefix_len = value as u8,
            "mean" => monitor.ewma_trackers[place].mean_x256 = value as u32,
            "samples" => monitor.ewma_trackers[place].sample_count = value as u8,
            "window_count" | "window_next" => {
                let Some(entry) = &mut monitor.client_hashes[place] else { return true };
                if field == "window_count" { entry.count = value as u8 } else { entry.write_idx = value as u8 }
            }
            _ => return false,
        }
        true
    }
}
