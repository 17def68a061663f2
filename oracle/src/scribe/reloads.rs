//! Settings that come back after a power cut, and scripts that lose all else by one.

use super::{
    Maker, Scribe, add_rule, anew, arg, clear_rules, connect, publish, remove_rule, set_storm, spoil, swap_rules,
};
use crate::make::{EDGES, among};
use crate::play::RELOADS;
use vs_mqtt_monitor::state;

/// The maker of them.
pub const RELOADED: Maker = ("settings that come back", reloaded, &RELOADS);

/// In the form that can say all, in the other, or seldom in one that there is not.
pub fn reload(scribe: &mut Scribe) {
    let any = scribe.random.next() as u32;
    let form = match scribe.random.below(16) {
        0 => scribe.random.pick(&[0, 3, 257, 65_537, u32::MAX, any]),
        1..7 => 1,
        _ => 2,
    };
    scribe.line(format!("reload {form}"));
}

/// A rule that is of the longest pattern, or not of ASCII alone.
fn rule_apart(scribe: &mut Scribe) {
    let string = scribe.random.pick(&EDGES).as_bytes();
    let pattern =
        if scribe.random.one_in(2) { string.repeat(64 / string.len()) } else { among(string, scribe.random.below(5)) };
    let (policy, rate) = (scribe.random.pick(&super::POLICIES), scribe.random.next() as u16);
    scribe.rule(&pattern, "block", policy, rate);
}

/// Settings that no call makes, of which the text is refused: out of range, or a pattern that two rules have.
fn by_hand(scribe: &mut Scribe) {
    let count = scribe.play.original.monitor.rule_count();
    let line = match scribe.random.below(4) {
        0 => format!("threshold {}", scribe.random.pick(&[0, 1, 2, 16, 17, 255])),
        1 => format!("window {}", scribe.random.pick(&[0, 999_999, 1_000_000, 600_000_000, 600_000_001, u64::MAX])),
        // A rule that is counted no more, and its pattern is not gone.
        2 => format!("rule_count {}", count.saturating_sub(1)),
        _ => {
            let [place, other] = [0; 2].map(|_| scribe.random.below(count.max(1)));
            let rule = state::rule(&scribe.play.original.monitor, other);
            let pattern = rule.map_or(b"a/b".to_vec(), |rule| rule.pattern[..rule.pattern_len as usize].to_vec());
            format!("rule_pattern {place} {}", arg(&pattern))
        }
    };
    scribe.line(line);
}

/// Tables that are empty, full or between, reloaded between changes of rules and settings, with all else that a monitor
/// holds lost each time.
fn reloaded(scribe: &mut Scribe) {
    for place in 0..scribe.random.pick(&[0, 1, 5, 30, 32]) {
        let policy = scribe.random.pick(&super::POLICIES);
        scribe.rule(format!("a/{place}").as_bytes(), "allow", policy, place);
    }
    scribe.some_turns(
        30,
        &[
            (6, reload),
            (6, add_rule),
            (2, rule_apart),
            (2, remove_rule),
            (2, swap_rules),
            (3, set_storm),
            (4, publish),
            (2, connect),
            (1, anew),
        ],
    );
    scribe.some_turns(12, &[(2, by_hand), (4, reload), (1, add_rule), (1, set_storm), (1, publish)]);
    for last in [clear_rules, spoil, spoil] {
        last(scribe);
        reload(scribe);
    }
}
