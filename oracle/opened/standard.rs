// Appended by oracle/build to the copy of embedded/mqtt-monitor in target/oracle/standard, which chooses rules by it:
// libmosquitto, which nobody here wrote and which keeps MQTT 3.1.1, section 4.7.

/// The matcher by which `inspect` chooses a rule.
pub mod matcher {
    use core::ffi::{c_char, c_int};

    /// Whether it is that of MQTT 3.1.1.
    pub const STANDARD: bool = true;

    #[link(name = "mosquitto")]
    extern "C" {
        fn mosquitto_topic_matches_sub(sub: *const c_char, topic: *const c_char, result: *mut bool) -> c_int;
    }

    /// Whether a pattern that `add_rule` takes matches a topic of 1 to 128 bytes.
    ///
    /// libmosquitto refuses a name with a zero byte, `+` or `#`, which a Subscribe or Unsubscribe may have, and which is
    /// matched as text. So it is asked with another byte in their place, one that neither the topic nor the pattern has.
    /// Its answer is the same: all that matching asks of a byte of a name is whether it parts levels, whether it is a
    /// dollar sign and whether it equals a byte of a plain level of the pattern. The three are none of that, since a
    /// pattern that is taken has no zero byte, and `+` and `#` only as wildcards; nor is the other byte.
    pub fn matches(topic: &[u8], pattern: &[u8]) -> bool {
        let known = |byte: &u8| b"/$+#".contains(byte) || topic.contains(byte) || pattern.contains(byte);
        let other = (1..=255).find(|byte| !known(byte)).expect("at most 128 + 64 + 4 of 255 bytes are known");
        let (mut name, mut filter) = ([0; 129], [0; 65]);
        for (place, &byte) in name.iter_mut().zip(topic) {
            *place = if matches!(byte, 0 | b'+' | b'#') { other } else { byte };
        }
        filter[..pattern.len()].copy_from_slice(pattern);
        let mut result = false;
        // Both end in a zero byte behind the topic or the pattern, and have no other before it.
        let refused = unsafe { mosquitto_topic_matches_sub(filter.as_ptr().cast(), name.as_ptr().cast(), &mut result) };
        let (topic, pattern) = (topic.escape_ascii(), pattern.escape_ascii());
        assert!(refused == 0, "libmosquitto refuses with {refused}: topic \"{topic}\", pattern \"{pattern}\"");
        result
    }
}
