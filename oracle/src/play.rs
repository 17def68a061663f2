//! One script through the Rust original: its text, with a look at the whole state behind each line, what the original
//! says to it, and what happened on the way.

use crate::answers::{Answer, NEW, NEW_DENY_DEFAULT, Original, bytes, no_call_hands_out};
use crate::met::{self, KINDS, Met, PLACES, STEPS, choices};
use crate::mqtt;
use crate::queued::Ran;
use crate::tried::{Left, Stand};
use std::panic::{AssertUnwindSafe, catch_unwind};
use vs_mqtt_monitor::matcher::STANDARD;
use vs_mqtt_monitor::{TopicAction, opened, state};

/// Every public call of the monitor, and the run of packets. `inspect_claimed` is `inspect` with claimed lengths, `counters`
/// are three calls.
const CALLS: [&str; 19] = [
    NEW,
    NEW_DENY_DEFAULT,
    "add_rule",
    "remove_rule",
    "swap_rules",
    "clear_rules",
    "validate_rules",
    "set_connect_storm_params",
    "inspect",
    "inspect_claimed",
    "remove_rate_bucket",
    "remove_ewma_tracker",
    "reset_state",
    "counters",
    "standing",
    "tokens_left",
    "queue",
    "covered_rules",
    "later_name",
];

const TYPES: [&str; 15] = [
    "type 1", "type 2", "type 3", "type 4", "type 5", "type 6", "type 7", "type 8", "type 9", "type 10", "type 11",
    "type 12", "type 13", "type 14", "type 15",
];

/// Every refusal that documents 01 and 02 have of each call.
const REFUSALS: [&str; 26] = [
    "add_rule refused 6",
    "add_rule refused 9",
    "add_rule refused 36",
    "remove_rule refused 9",
    "swap_rules refused 9",
    "inspect_claimed refused 9",
    "remove_rate_bucket refused 7",
    "remove_ewma_tracker refused 7",
    "add_rule refused 10",
    "remove_rule refused 10",
    "swap_rules refused 10",
    "clear_rules refused 10",
    "validate_rules refused 10",
    "set_connect_storm_params refused 10",
    "inspect refused 10",
    "inspect_claimed refused 10",
    "remove_rate_bucket refused 10",
    "remove_ewma_tracker refused 10",
    "reset_state refused 10",
    "standing refused 9",
    "standing refused 10",
    "tokens_left refused 9",
    "tokens_left refused 10",
    "covered_rules refused 10",
    "later_name refused 9",
    "later_name refused 10",
];

/// Where the limit stood when a script asked for it, and what a message would have left.
pub const STANDS: [&str; 18] = [
    "stands: denied by 2",
    "stands: denied by 3",
    "stands: denied by 9",
    "stands: no limiter",
    "stands: held, a token left",
    "stands: held, later",
    "stands: held, never",
    "stands: new, a place free",
    "stands: new, later",
    "stands: new, never",
    "left: no limiter",
    "left: denied by 5",
    "left: denied by 6",
    "left: denied by another",
    "left: nothing",
    "left: one token",
    "left: more",
    "left: all but one of a rate",
];

/// Reloads of settings, and what was lost by them. Form 1 cannot say how standard monitors match.
pub const RELOADS: [&str; 12] = [
    if STANDARD { "reload refused 37" } else { "reload in form 1" },
    "reload in form 2",
    "reload refused 10",
    "reload refused 22",
    "reload refused 29",
    "reload refused 35",
    "reloaded without rules",
    "reloaded with 32 rules",
    "reloaded, to deny by default",
    "reloaded, buckets lost",
    "reloaded, clients lost",
    "reloaded, trackers lost",
];

/// Runs of packets: how they ended, and what they did or left alone.
pub const QUEUES: [&str; 21] = [
    "queue ended by 0",
    "queue ended by 10",
    "queue ended by 28",
    "queue ended by 31",
    "queue ended by 32",
    "queue ended by 33",
    "queue of no packet",
    "queue of 10 messages or more",
    "queue ended after some messages by 28",
    "queue ended after some messages by 31",
    "queue ended after some messages by 32",
    "queue ended after some messages by 33",
    "queue ended by 28 at a CONNECT",
    "queue ended by 28 at a PUBLISH",
    "queue ended by 28 at several filters",
    "queue in an exact fit",
    "queue that changed buckets",
    "queue that changed clients",
    "queue that changed trackers",
    "queue with a packet of several messages",
    "queue in which the id wrapped",
];

/// Rules that others cover or do not, and the name that shows it.
pub const COVERS: [&str; 10] = [
    "covered: no rule of several",
    "covered: a rule by the first",
    "covered: a rule by another",
    "covered: a rule by several",
    "covered: all rules but the first",
    "covered: some of 32 rules",
    if STANDARD { "covered: not as the port has it" } else { "covered: not as the standard has it" },
    "later name: none",
    "later name: of the first letter",
    "later name: of the second letter",
];

/// What only standard monitors meet: a loaded one goes on as one.
const GOES_ON: &str = "reloaded, then a rule chosen that the port would not choose";

/// Why a state is refused with 10.
const REASONS: [&str; 9] = [
    "10: rule count over 32",
    "10: a rule that counts is not live",
    "10: pattern length over 64",
    "10: a pattern that add_rule refuses with 9",
    "10: a pattern that is not UTF-8",
    "10: a bucket's prefix length over 32",
    "10: a bucket's remainder over 999,999",
    "10: a tracker's prefix length over 32",
    "10: a window's count over 16",
];

const MORE: [&str; 22] = [
    "calls",
    "four alerts at once",
    "hash in an alert",
    "32 rules",
    "32 buckets",
    "16 clients",
    "16 trackers",
    "bucket removed",
    "tracker removed",
    "remainder over 999,999 in a free place",
    "tokens above the capacity cut",
    "pattern overwritten",
    "listed difference: bytes behind an added pattern",
    "rules shadowed",
    "id wrapped",
    "inspected at its cap",
    "alerts at their cap",
    "clock back",
    "mean at its ceiling",
    "sum at its cap",
    "255 samples",
    "window of 16",
];

/// What all scripts together must have met.
pub fn all() -> impl Iterator<Item = &'static str> {
    let kinds = KINDS[1..].iter().copied();
    let calls = CALLS.into_iter().chain(TYPES).chain(REFUSALS).chain(REASONS);
    calls
        .chain(STANDS)
        .chain(RELOADS)
        .chain(QUEUES)
        .chain(COVERS)
        .chain(STANDARD.then_some(GOES_ON))
        .chain(kinds)
        .chain(PLACES)
        .chain(STEPS)
        .chain(MORE)
        .chain(choices())
}

/// A script on its way.
pub struct Play<'a> {
    pub original: Original,
    met: &'a mut Met,
    /// The lines so far.
    pub lines: Vec<String>,
    /// The answers so far.
    pub said: String,
    last_at: u64,
    /// Whether the monitor is one that a text loaded to.
    loaded: bool,
}

impl Play<'_> {
    pub fn new(met: &mut Met) -> Play<'_> {
        Play { original: Original::new(), met, lines: Vec::new(), said: String::new(), last_at: 0, loaded: false }
    }

    /// One line more.
    pub fn line(&mut self, line: String) {
        let holders = opened::holders(&self.original.monitor);
        let (rules, reason) = (self.original.monitor.rule_count(), no_call_hands_out(&self.original.monitor));
        let (next_id, stale) = (state::settings(&self.original.monitor).3, self.original.stale);
        let buckets = met::buckets(&self.original.monitor);
        let far = buckets.iter().flatten().any(|bucket| !bucket.live && bucket.remainder > 999_999);
        let answer = catch_unwind(AssertUnwindSafe(|| self.original.answer(&line)));
        let answer = answer.unwrap_or_else(|_| Answer::Text(" (the original panics)".into()));
        self.said += &format!("{line} ->{answer}\nall ->{}\n", self.original.answer("all"));
        let words: Vec<&str> = line.split(' ').collect();
        if let Some(call) = CALLS.iter().find(|call| **call == words[0]) {
            self.met.count(call, 1);
            self.met.count("calls", 1);
        }
        let monitor = &self.original.monitor;
        let taken = matches!(answer, Answer::Done(_) | Answer::Inspected(..) | Answer::Queued(Ran { number: 0, .. }));
        self.met.count("remainder over 999,999 in a free place", (far && taken).into());
        match &answer {
            Answer::Text(_) => self.loaded &= words[0] != NEW && words[0] != NEW_DENY_DEFAULT,
            Answer::Done(shadowed) => {
                self.met.count("rules shadowed", (*shadowed > 0).into());
                self.met.count("bucket removed", (words[0] == "remove_rate_bucket").into());
                self.met.count("tracker removed", (words[0] == "remove_ewma_tracker").into());
                let overwritten = words[0] == "add_rule" && rules == monitor.rule_count();
                self.met.count("pattern overwritten", overwritten.into());
                self.met.count("listed difference: bytes behind an added pattern", self.original.stale - stale);
            }
            Answer::Refused(number) => {
                let name = format!("{} refused {number}", words[0]);
                self.met.count(REFUSALS.iter().chain(&RELOADS).find(|known| **known == name).expect(&name), 1);
                if let (10, Some(reason)) = (number, reason) {
                    self.met.count(reason, 1);
                }
            }
            Answer::Reloaded { number: 0, .. } => {
                let lost = |places: std::ops::Range<usize>| holders[places].iter().any(Option::is_some).into();
                let name = format!("reload in form {}", words[1]);
                self.met.count(RELOADS.iter().find(|known| **known == name).expect(&name), 1);
                self.met.count("calls", 1);
                self.met.count("reloaded without rules", (rules == 0).into());
                self.met.count("reloaded with 32 rules", (rules == 32).into());
                let denies = state::settings(monitor).0 == TopicAction::Block;
                self.met.count("reloaded, to deny by default", denies.into());
                self.met.count("reloaded, buckets lost", lost(0..32));
                self.met.count("reloaded, clients lost", lost(32..48));
                self.met.count("reloaded, trackers lost", lost(48..64));
                self.loaded = true;
            }
            Answer::Reloaded { number, .. } => {
                let name = format!("reload refused {number}");
                self.met.count(RELOADS.iter().find(|known| **known == name).expect(&name), 1);
            }
            Answer::Stands(Stand { kind, rate, from }) => self.met.count(
                match (kind, from) {
                    (2, _) => "stands: denied by 2",
                    (3, _) => "stands: denied by 3",
                    (9, _) => "stands: denied by 9",
                    _ if *rate == 0 => "stands: no limiter",
                    (5, Some(0)) => "stands: held, a token left",
                    (5, Some(_)) => "stands: held, later",
                    (5, None) => "stands: held, never",
                    (_, Some(0)) => "stands: new, a place free",
                    (_, Some(_)) => "stands: new, later",
                    (_, None) => "stands: new, never",
                },
                1,
            ),
            Answer::Left(Left { kind, rate, tokens }) if *rate > 0 => {
                let what = match (kind, tokens) {
                    (0, 0) => "left: nothing",
                    (0, 1) => "left: one token",
                    (0, _) => "left: more",
                    (5, _) => "left: denied by 5",
                    _ => "left: denied by 6",
                };
                self.met.count(what, 1);
                self.met.count("left: all but one of a rate", (kind == &0 && tokens + 1 == u64::from(*rate)).into());
            }
            Answer::Left(Left { kind: 0, .. }) => self.met.count("left: no limiter", 1),
            Answer::Left(_) => self.met.count("left: denied by another", 1),
            Answer::Covered { by, apart } => self.count_covered(by, *apart),
            Answer::LaterName(found) => {
                let what = match found.as_ref().map(|tried| tried.letter) {
                    None => "later name: none",
                    Some(b'a') => "later name: of the first letter",
                    Some(_) => "later name: of the second letter",
                };
                self.met.count(what, 1);
            }
            Answer::Inspected(message, result) => {
                self.met.count(TYPES[message.packet_type as usize - 1], 1);
                self.met.count("clock back", (message.timestamp_us < self.last_at).into());
                self.last_at = message.timestamp_us;
                self.met.count_alerts(result);
                let apart = self.met.count_choice(monitor, message);
                self.met.count(GOES_ON, (apart && self.loaded).into());
                self.met.count_places(holders, monitor, result);
                self.met.count_step(&buckets, monitor, message, result);
                self.met.count("id wrapped", (state::settings(monitor).3 < next_id).into());
                self.met.count("inspected at its cap", (monitor.total_inspected() == u64::MAX).into());
                let at_cap = monitor.total_alerts() == u64::MAX && result.alert_count > 0;
                self.met.count("alerts at their cap", at_cap.into());
            }
            Answer::Queued(ran) => {
                if let (10, Some(reason)) = (ran.number, reason) {
                    self.met.count(reason, 1);
                }
                let after = opened::holders(monitor);
                let changed = |places: std::ops::Range<usize>| holders[places.clone()] != after[places];
                self.met.count("queue that changed buckets", (buckets != met::buckets(monitor)).into());
                self.met.count("queue that changed clients", changed(32..48).into());
                self.met.count("queue that changed trackers", changed(48..64).into());
                self.met.count("queue in which the id wrapped", (state::settings(monitor).3 < next_id).into());
                for (message, result, _) in &ran.messages {
                    self.met.count(TYPES[message.packet_type as usize - 1], 1);
                    self.met.count("clock back", (message.timestamp_us < self.last_at).into());
                    self.last_at = message.timestamp_us;
                    self.met.count_alerts(result);
                    let apart = self.met.count_choice(monitor, message);
                    self.met.count(GOES_ON, (apart && self.loaded).into());
                }
                self.count_end(ran, words[3], words[4]);
            }
        }
        self.count_tables();
        self.lines.push(line);
    }

    /// Counts which rules are covered, each by these.
    fn count_covered(&mut self, by: &[Vec<usize>], apart: bool) {
        let covered: Vec<&Vec<usize>> = by.iter().filter(|by| !by.is_empty()).collect();
        let some = |such: fn(&[usize]) -> bool| u64::from(covered.iter().any(|by| such(by)));
        self.met.count("covered: no rule of several", (covered.is_empty() && by.len() > 1).into());
        self.met.count("covered: a rule by the first", some(|by| by[0] == 0));
        self.met.count("covered: a rule by another", some(|by| by[0] > 0));
        self.met.count("covered: a rule by several", some(|by| by.len() > 1));
        self.met.count("covered: all rules but the first", (covered.len() > 1 && covered.len() + 1 == by.len()).into());
        self.met.count("covered: some of 32 rules", (covered.len() > 0 && by.len() == 32).into());
        self.met.count(COVERS[6], apart.into());
    }

    /// Counts how a run of these packets into this room ended.
    fn count_end(&mut self, ran: &Ran, room: &str, packets: &str) {
        let mut count = |name: String| self.met.count(QUEUES.iter().find(|known| **known == name).expect(&name), 1);
        count(format!("queue ended by {}", ran.number));
        if ran.number != 0 && ran.done > 0 {
            count(format!("queue ended after some messages by {}", ran.number));
        }
        let packets = bytes(packets.trim_start_matches('-')).expect("bytes in hex");
        if ran.number == 28 {
            let packet = mqtt::read(&packets, ran.place).expect("a packet that is taken");
            match (packet.messages[0].kind, packet.messages.len()) {
                (mqtt::CONNECT, _) => count("queue ended by 28 at a CONNECT".into()),
                (mqtt::PUBLISH, _) => count("queue ended by 28 at a PUBLISH".into()),
                (_, 2..) => count("queue ended by 28 at several filters".into()),
                _ => {}
            }
        }
        let several = ran.packets.len() as u64 != ran.done;
        let exact = ran.number == 0 && ran.done > 0 && room == ran.records.len().to_string();
        self.met.count("queue of no packet", (packets.is_empty() && ran.number == 0).into());
        self.met.count("queue of 10 messages or more", (ran.done >= 10).into());
        self.met.count("queue in an exact fit", exact.into());
        self.met.count("queue with a packet of several messages", several.into());
    }

    /// Counts what a state has reached, whichever call led there.
    fn count_tables(&mut self) {
        let monitor = &self.original.monitor;
        let holders = opened::holders(monitor);
        let full = |places: std::ops::Range<usize>| holders[places].iter().all(Option::is_some).into();
        self.met.count("32 rules", (monitor.rule_count() == 32).into());
        self.met.count("32 buckets", full(0..32));
        self.met.count("16 clients", full(32..48));
        self.met.count("16 trackers", full(48..64));
        for tracker in (0..16).filter_map(|place| state::tracker(monitor, place)) {
            self.met.count("mean at its ceiling", (tracker.samples > 8 && tracker.mean == 65_536).into());
            self.met.count("sum at its cap", (tracker.samples < 8 && tracker.mean == 524_288).into());
            self.met.count("255 samples", (tracker.samples == 255).into());
        }
        for window in (0..16).filter_map(|place| state::window(monitor, place)) {
            self.met.count("window of 16", (window.count == 16).into());
        }
    }
}

/// A script as the program reads it: each line with a look at the whole state behind it.
pub fn text(lines: &[String]) -> String {
    lines.iter().map(|line| format!("{line}\nall\n")).collect()
}

/// What the original says to it.
pub fn said(lines: &[String]) -> String {
    let mut met = Met::default();
    let mut play = Play::new(&mut met);
    lines.iter().for_each(|line| play.line(line.clone()));
    play.said
}
