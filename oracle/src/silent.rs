//! Rules of the original that can never speak (request C-20), which it has no call for: its patterns, by the second
//! decision (levels.rs), and the name that the definition has (samples.rs) by the original's own matcher.

use crate::answers::Answer;
use crate::levels;
use crate::samples::only_later;
use vs_mqtt_monitor::matcher::{self, STANDARD};
use vs_mqtt_monitor::{MqttMonitor, state};
use vs_types::VsError;

/// The rules that a report has a place for.
pub const RULES: usize = 32;

/// The patterns of the rules that count, of a state that number 10 lets pass.
fn patterns(monitor: &MqttMonitor) -> Vec<Vec<u8>> {
    let rules = (0..monitor.rule_count()).filter_map(|place| state::rule(monitor, place));
    rules.map(|rule| rule.pattern[..rule.pattern_len as usize].to_vec()).collect()
}

/// Of each pattern the places of all earlier ones that cover it, under the port's matcher or the standard's.
fn covering(patterns: &[Vec<u8>], standard: bool) -> Vec<Vec<usize>> {
    let covers = |earlier: usize, later: usize| levels::covers(&patterns[earlier], &patterns[later], standard);
    let of = |later| (0..later).filter(|&earlier| covers(earlier, later)).collect();
    (0..patterns.len()).map(of).collect()
}

/// Of each rule all earlier ones that cover it; and whether the other matcher says otherwise.
pub fn covered_rules(monitor: &MqttMonitor) -> Answer {
    let patterns = patterns(monitor);
    let by = covering(&patterns, STANDARD);
    let apart = by != covering(&patterns, !STANDARD);
    Answer::Covered { by, apart }
}

/// The name that only the later of two rules matches.
pub fn later_name(monitor: &MqttMonitor, later: u64, earlier: u64) -> Answer {
    let patterns = patterns(monitor);
    if later >= patterns.len() as u64 || earlier >= later {
        return Err(VsError::InvalidInput).into();
    }
    let [earlier, later] = [earlier, later].map(|place| &patterns[place as usize]);
    let name = only_later(earlier, later, matcher::matches);
    assert_eq!(name.is_none(), levels::covers(earlier, later, STANDARD), "the second decision and the names");
    Answer::LaterName(name)
}
