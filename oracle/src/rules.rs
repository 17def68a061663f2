//! `add_rule` of the original with the test of request C-16 put before it: a pattern that is not UTF-8 is refused with
//! 36, after the tests of its length and of zero bytes and before all others. Rust's own `from_utf8` says what is UTF-8,
//! and the original decides everything else.

use vs_mqtt_monitor::{MqttMonitor, QosPolicy, TopicAction};

/// Adds a rule; the error is the number of its refusal.
pub fn add_rule(
    monitor: &mut MqttMonitor,
    pattern: &[u8],
    action: TopicAction,
    policy: QosPolicy,
    rate: u16,
) -> Result<u16, u32> {
    if std::str::from_utf8(pattern).is_err() {
        // What the original says before: a pattern of letters and zero bytes has no other fault than its length or these.
        let plain: Vec<u8> = pattern.iter().map(|&byte| if byte == 0 { 0 } else { b'a' }).collect();
        let before = refusal(&plain);
        return Err(if before == 0 { 36 } else { before });
    }
    monitor.add_rule(pattern, action, policy, rate).map_err(|error| error as u32)
}

/// What it answers on a fresh monitor: 0, or the number of the refusal.
pub fn refusal(pattern: &[u8]) -> u32 {
    add_rule(&mut MqttMonitor::new(), pattern, TopicAction::Allow, QosPolicy::Any, 0).err().unwrap_or(0)
}
