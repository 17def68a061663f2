// Appended by oracle/build to a copy of embedded/mqtt-monitor: the private functions that the port is compared with,
// each passed on as it stands, and who holds the places of the private tables.

/// The private functions and tables of this file.
pub mod opened {
    /// `djb2_hash` above.
    #[inline]
    pub fn djb2_hash(data: &[u8]) -> u32 {
        super::djb2_hash(data)
    }

    /// `suffix_hash` above.
    #[inline]
    pub fn suffix_hash(topic: &[u8]) -> u32 {
        super::suffix_hash(topic)
    }

    /// `topic_matches` above.
    #[inline]
    pub fn topic_matches(topic: &[u8], pattern: &[u8]) -> bool {
        super::topic_matches(topic, pattern)
    }

    /// `validate_mqtt_wildcard` above.
    #[inline]
    pub fn validate_mqtt_wildcard(pattern: &[u8]) -> bool {
        super::validate_mqtt_wildcard(pattern)
    }

    /// `is_broad_wildcard_subscribe` above.
    #[inline]
    pub fn is_broad_wildcard_subscribe(topic: &[u8]) -> bool {
        super::is_broad_wildcard_subscribe(topic)
    }

    /// `starts_with_dollar` above.
    #[inline]
    pub fn starts_with_dollar(topic: &[u8]) -> bool {
        super::starts_with_dollar(topic)
    }

    /// `contains_invalid_publish_char` above.
    #[inline]
    pub fn contains_invalid_publish_char(topic: &[u8]) -> bool {
        super::contains_invalid_publish_char(topic)
    }

    /// What tells a holder of a place from others: two hashes and a length (none for a client).
    pub type Holder = Option<(u32, u32, u16)>;

    /// Who holds each place: 32 buckets, 16 clients, 16 trackers.
    pub fn holders(monitor: &super::MqttMonitor) -> [Holder; 64] {
        let mut all = [None; 64];
        for (place, bucket) in monitor.rate_buckets.iter().enumerate() {
            all[place] = bucket.active.then_some((bucket.topic_hash, bucket.topic_hash2, bucket.topic_len));
        }
        for (place, client) in monitor.client_hashes.iter().enumerate() {
            all[32 + place] = client.map(|entry| (entry.client_hash, entry.client_hash2, 0));
        }
        for (place, tracker) in monitor.ewma_trackers.iter().enumerate() {
            all[48 + place] = tracker.active.then_some((tracker.topic_hash, tracker.topic_hash2, tracker.topic_len));
        }
        all
    }
}
