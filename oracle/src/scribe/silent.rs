//! Asking which rules can never speak, and by which name it is seen that one can; and tables in which many cover others.

use super::{Maker, Scribe, add_rule, arg, clear_rules, mend, publish, remove_rule, spoil, swap_rules, words};
use crate::play::COVERS;
use crate::relatives;

/// The maker of them.
pub const SILENT: Maker = ("rules that can never speak", silent, &COVERS);

pub fn ask_covered(scribe: &mut Scribe) {
    scribe.line("covered_rules".into());
}

/// Mostly of two rules that count, the earlier before the later.
pub fn ask_name(scribe: &mut Scribe) {
    let count = scribe.play.original.monitor.rule_count();
    let (mut later, mut earlier) = (scribe.place(), scribe.place());
    if count > 1 && !scribe.random.one_in(8) {
        later = 1 + scribe.random.below(count - 1) as u64;
        earlier = scribe.random.below(later as usize) as u64;
    }
    scribe.line(format!("later_name {later} {earlier}"));
}

/// A pattern put in a rule's place by hand, which another rule may have too.
fn set_pattern(scribe: &mut Scribe) {
    let count = scribe.play.original.monitor.rule_count();
    let (place, pattern) = (scribe.random.below(count.max(1)), scribe.any(|scribe| &scribe.patterns));
    scribe.line(format!("rule_pattern {place} {}", arg(&pattern)));
}

/// Tables of patterns that cover others under one matcher, under both or not quite, some of them of the longest; few rules
/// or a full table, in any order. Last, states that number 10 refuses, and mended ones.
fn silent(scribe: &mut Scribe) {
    // A rule that only the second letter shows, all rules covered but the first, or neither.
    let first: [&[&str]; 3] = [&["a", "+"], &["+/#", "a/b", "b"], &["$SYS/#"]];
    for pattern in scribe.random.pick(&first) {
        scribe.rule(pattern.as_bytes(), "allow", "any", 1);
    }
    ask_covered(scribe);
    ask_name(scribe);
    scribe.patterns = words(&[
        "#", "+", "+/#", "+/+", "+/+/#", "/#", "/+", "/+/#", "/", "a", "b", "a/", "a/#", "a/+", "a/a", "a/b", "a/b/#",
        "+/b", "+/b/+", "a/+/c", "$SYS/#", "$SYS/+", "$SYS/a", "+/a", "$", "$/+",
    ]);
    for _ in 0..scribe.random.pick(&[0, 1, 8]) {
        scribe.patterns.extend(relatives::pair(&mut scribe.random));
    }
    for _ in 0..scribe.random.pick(&[2, 4, 8, 16]) {
        add_rule(scribe);
    }
    for place in 0..scribe.random.pick(&[0, 0, 32]) {
        scribe.rule(format!("a/{place}").as_bytes(), "allow", "any", 0);
    }
    scribe.some_turns(
        30,
        &[
            (6, ask_covered),
            (12, ask_name),
            (3, add_rule),
            (2, remove_rule),
            (6, swap_rules),
            (2, set_pattern),
            (1, publish),
        ],
    );
    for last in [spoil, mend, clear_rules] {
        last(scribe);
        ask_covered(scribe);
        ask_name(scribe);
    }
}
