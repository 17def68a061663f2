// Appended by oracle/build to a copy of embedded/mqtt-monitor that chooses rules as the original does.

/// The matcher by which `inspect` chooses a rule.
pub mod matcher {
    /// Whether it is that of MQTT 3.1.1.
    pub const STANDARD: bool = false;

    pub use super::opened::topic_matches as matches;
}
