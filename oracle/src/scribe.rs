//! Random scripts of calls, one maker for each thing that the monitor does. A scribe runs the Rust original along, so
//! that it can aim at the state: at the end of a bucket or a window, at a tracker's threshold, at a full table. What
//! the scripts then really met is counted by the comparison, and each maker names what it must have met.

mod asks;
mod queues;
mod reloads;
mod silent;

use crate::answers::{NEW, NEW_DENY_DEFAULT, hex};
use crate::make::{BROKEN, LIKE_NOBODY, among, pattern};
use crate::met::Met;
use crate::pairs::{Pairs, reblocked};
use crate::play::Play;
use crate::tally::Random;
use asks::{ask_standing, ask_tokens};
use queues::queue;
use reloads::reload;
use silent::{ask_covered, ask_name};
use vs_mqtt_monitor::{MqttMonitor, state};
use vs_types_embedded::fnv1a_hash;

const CONNECT: u8 = 1;
const PUBLISH: u8 = 3;
const SUBSCRIBE: u8 = 8;
const UNSUBSCRIBE: u8 = 10;
const POLICIES: [&str; 8] = ["any", "any", "min0", "min1", "min2", "only0", "only1", "only2"];

/// Calls of a script, beside those that fill its tables.
const TURNS: usize = 50;

/// One maker: its name, itself, and what its scripts must have met.
pub type Maker = (&'static str, fn(&mut Scribe), &'static [&'static str]);

pub const MAKERS: &[Maker] = &[
    ("every call", every_call, &[NEW, NEW_DENY_DEFAULT, "reset_state", "counters", "pattern overwritten"]),
    (
        "tables of rules",
        rules,
        &["32 rules", "add_rule refused 6", "add_rule refused 9", "add_rule refused 36", "rules shadowed"],
    ),
    (
        "buckets",
        buckets,
        &[
            "32 buckets",
            "bucket replaced",
            "bucket expired",
            "bucket removed",
            "kind 5",
            "remainder kept",
            "remainder dropped",
            "time moved by a denied message",
            "token spent when the clock went back",
        ],
    ),
    ("clients", clients, &["16 clients", "client replaced", "kind 1", "window of 16"]),
    ("trackers", trackers, &["16 trackers", "tracker replaced", "tracker removed", "kind 7", "mean at its ceiling"]),
    ("equal hashes", equal_hashes, &["bucket removed", "tracker removed", "kind 1", "kind 5"]),
    ("many alerts at once", many_alerts, &["four alerts at once", "hash in an alert"]),
    ("names in every type", names, &["type 15", "kind 9", "kind 10", "kind 11", "inspect_claimed refused 9"]),
    ("by hand: counters", counters, &["id wrapped", "inspected at its cap", "alerts at their cap"]),
    ("by hand: number 10", number_10, &["inspect refused 10", "validate_rules refused 10"]),
    (
        "by hand: records",
        records,
        &[
            "listed difference: bytes behind an added pattern",
            "255 samples",
            "kind 5",
            "kind 7",
            "remainder kept",
            "tokens above the capacity cut",
        ],
    ),
    (
        "removals on a live hub",
        removals,
        &["bucket removed", "bucket replaced", "kind 5", "kind 6", "remove_rate_bucket refused 7"],
    ),
    asks::STANDING,
    reloads::RELOADED,
    queues::QUEUED,
    silent::SILENT,
];

/// One script of a maker.
pub fn make<'a>(maker: &Maker, seed: u64, pairs: &'a Pairs, met: &'a mut Met) -> Play<'a> {
    let mut scribe = Scribe {
        random: Random(seed),
        play: Play::new(met),
        pairs,
        now: 0,
        patterns: words(&["#", "+", "a/#", "a/+", "+/b", "a/b", "b", "$SYS/#", "+/+/+"]),
        topics: words(&["a/b", "a/c", "a", "b", "c/b", "c", "$SYS/a", "a/b/c", "", "a/"]),
        clients: words(&["", "c1", "c2"]),
        rates: vec![0, 1, 2, 65_535],
        good: 15,
        forward: false,
    };
    scribe.now = scribe.random.pick(&[0, 0, 1_000_000, 10_000_000_000, u64::MAX - 1_000_000_000]);
    let first = if scribe.random.one_in(4) { NEW_DENY_DEFAULT } else { NEW };
    scribe.line(first.into());
    maker.1(&mut scribe);
    scribe.play
}

fn words(words: &[&str]) -> Vec<Vec<u8>> {
    words.iter().map(|word| word.as_bytes().to_vec()).collect()
}

/// Bytes as an argument.
fn arg(bytes: &[u8]) -> String {
    if bytes.is_empty() { "-".into() } else { hex(bytes) }
}

/// A script in the making, with what its calls are made of.
pub struct Scribe<'a> {
    random: Random,
    play: Play<'a>,
    pairs: &'a Pairs,
    now: u64,
    patterns: Vec<Vec<u8>>,
    topics: Vec<Vec<u8>>,
    clients: Vec<Vec<u8>>,
    rates: Vec<u16>,
    /// Good verdicts for one that is bad.
    good: usize,
    /// Whether the clock never goes back.
    forward: bool,
}

/// One line, chosen and added.
type Turn = fn(&mut Scribe);

impl Scribe<'_> {
    fn line(&mut self, line: String) {
        self.play.line(line);
    }

    /// As many lines as a script has, each of any of these by its weight.
    fn turns(&mut self, turns: &[(usize, Turn)]) {
        self.some_turns(TURNS, turns);
    }

    /// The same, so many times.
    fn some_turns(&mut self, times: usize, turns: &[(usize, Turn)]) {
        let weighted: Vec<Turn> = turns.iter().flat_map(|&(weight, turn)| vec![turn; weight]).collect();
        for _ in 0..times {
            self.random.pick(&weighted)(self);
        }
    }

    /// As many, of all calls that change a state and some of them more often.
    fn turns_of_all(&mut self, often: &[(usize, Turn)]) {
        self.turns(&[&CHANGES.map(|turn| (1, turn)), often].concat());
    }

    fn any(&mut self, from: fn(&Self) -> &[Vec<u8>]) -> Vec<u8> {
        let at = self.random.next() as usize % from(self).len();
        from(self)[at].clone()
    }

    fn topic(&mut self) -> Vec<u8> {
        self.any(|scribe| &scribe.topics)
    }

    /// Moves the clock: not at all, around a token's time, to the end of a bucket or a window, far, or back.
    fn step(&mut self) {
        let near = self.random.below(3) as u64;
        let monitor = &self.play.original.monitor;
        let marks: Vec<u64> = match self.random.below(16) {
            0 => {
                let ends = (0..32).filter_map(|place| state::bucket(monitor, place));
                ends.map(|bucket| bucket.at.saturating_add(299_999_999 + near)).collect()
            }
            1 | 2 => {
                let window = state::settings(monitor).2;
                let stamps = (0..16).filter_map(|place| Some(state::window(monitor, place)?.stamps[place]));
                stamps.map(|stamp| stamp.saturating_add(window).saturating_add(near).saturating_sub(1)).collect()
            }
            3 => vec![self.now.saturating_sub(self.random.pick(&[1, 1000, 1_000_000, 400_000_000]))],
            4 => vec![self.now.saturating_add(self.random.pick(&[60_000_000, 300_000_000, 4_000_000_000]))],
            5..9 => vec![self.now],
            _ => {
                // Most leave a part of a token, by any rate.
                let step =
                    self.random.pick(&[1, 15, 1000, 250_000, 400_000, 499_999, 500_000, 999_999, 1_000_000, 1_000_001]);
                vec![self.now.saturating_add(step)]
            }
        };
        if !marks.is_empty() {
            let least = if self.forward { self.now } else { 0 };
            self.now = self.random.pick(&marks).max(least);
        }
    }

    /// A size: around the thresholds of the trackers, around other limits, or any.
    fn size(&mut self) -> u16 {
        let monitor = &self.play.original.monitor;
        let trackers = (0..16).filter_map(|place| state::tracker(monitor, place));
        let mut aimed: Vec<u64> = trackers.map(|tracker| u64::from(tracker.mean) * 4 / 256).collect();
        aimed.extend([0, 10, 10, 64, 256, 65_535, self.random.next() >> 48]);
        (self.random.pick(&aimed) + self.random.below(2) as u64).min(65_535) as u16
    }

    fn payload(&mut self) -> Vec<u8> {
        let len = self.random.pick(&[0, 0, 0, 0, 1, 2, 31, 32, 33, 255, 256]);
        (0..len).map(|_| self.random.next() as u8).collect()
    }

    fn message(&mut self, kind: u8, topic: &[u8]) {
        let (size, payload) = (self.size(), self.payload());
        self.message_of(kind, topic, size, &payload);
    }

    fn message_of(&mut self, kind: u8, topic: &[u8], size: u16, payload: &[u8]) {
        let (now, clock) = (self.now, if self.random.one_in(1 + self.good) { "bad" } else { "ok" });
        let (qos, topic, payload) = (self.random.below(3), arg(topic), arg(payload));
        self.line(format!("inspect {now} {clock} {kind} {qos} {topic} {size} {payload}"));
    }

    fn rule(&mut self, pattern: &[u8], action: &str, policy: &str, rate: u16) {
        self.line(format!("add_rule {} {action} {policy} {rate}", arg(pattern)));
    }

    fn remove_bucket_of(&mut self, topic: &[u8]) {
        self.line(format!("remove_rate_bucket {}", arg(topic)));
    }

    /// More of a topic at one instant than the highest rate allows, if that is a low one.
    fn burst(&mut self, topic: &[u8]) {
        let rates = self.rates.iter().copied().filter(|&rate| rate < 10);
        for _ in 0..=rates.max().unwrap_or(2) {
            self.message_of(PUBLISH, topic, 0, b"");
        }
    }

    /// A rule's place: mostly one that counts.
    fn place(&mut self) -> u64 {
        let count = self.play.original.monitor.rule_count();
        match self.random.below(16) {
            0 => self.random.pick(&[31, 32, 33, 65_536, u64::MAX]),
            _ => self.random.below(count + 1) as u64,
        }
    }
}

fn add_rule(scribe: &mut Scribe) {
    let pattern = match scribe.random.below(8) {
        0 => {
            let len = scribe.random.pick(&[0, 1, 2, 3, 5, 8, 13, 63, 64, 65, 128]);
            pattern(&mut scribe.random, len)
        }
        1 => scribe.topic(),
        2 if scribe.random.one_in(2) => {
            let string = scribe.random.pick(&BROKEN);
            among(string, scribe.random.below(5))
        }
        _ => scribe.any(|scribe| &scribe.patterns),
    };
    let action = scribe.random.pick(&["allow", "allow", "allow", "block"]);
    let (policy, rate) = (scribe.random.pick(&POLICIES), scribe.random.below(scribe.rates.len()));
    let rate = scribe.rates[rate];
    scribe.rule(&pattern, action, policy, rate);
}

fn remove_rule(scribe: &mut Scribe) {
    let place = scribe.place();
    scribe.line(format!("remove_rule {place}"));
}

fn swap_rules(scribe: &mut Scribe) {
    let (a, b) = (scribe.place(), scribe.place());
    scribe.line(format!("swap_rules {a} {b}"));
}

fn clear_rules(scribe: &mut Scribe) {
    scribe.line("clear_rules".into());
}

fn validate_rules(scribe: &mut Scribe) {
    scribe.line("validate_rules".into());
}

fn set_storm(scribe: &mut Scribe) {
    let threshold: u8 = scribe.random.pick(&[0, 1, 2, 2, 3, 4, 5, 15, 16, 17, 255]);
    let windows = [0, 999_999, 1_000_000, 1_000_001, 60_000_000, 599_999_999, 600_000_000, 600_000_001, u64::MAX];
    let window = scribe.random.pick(&windows);
    scribe.line(format!("set_connect_storm_params {threshold} {window}"));
}

fn publish(scribe: &mut Scribe) {
    scribe.step();
    let topic = scribe.topic();
    scribe.message(PUBLISH, &topic);
}

/// A topic that has no bucket, when the oldest bucket is about to expire or just has.
fn publish_at_expiry(scribe: &mut Scribe) {
    let buckets = (0..32).filter_map(|place| state::bucket(&scribe.play.original.monitor, place));
    let oldest = buckets.map(|bucket| bucket.at).min().unwrap_or(0);
    scribe.now = oldest.saturating_add(299_999_999 + scribe.random.below(3) as u64);
    let topic = format!("m/new {}", scribe.random.below(1000));
    scribe.message(PUBLISH, topic.as_bytes());
}

fn connect(scribe: &mut Scribe) {
    scribe.step();
    let client = scribe.any(|scribe| &scribe.clients);
    scribe.message(CONNECT, &client);
}

/// A message of any type; topics and patterns stand for names.
fn any_type(scribe: &mut Scribe) {
    scribe.step();
    let any = 1 + scribe.random.below(15) as u8;
    let kind = scribe.random.pick(&[SUBSCRIBE, SUBSCRIBE, UNSUBSCRIBE, any, any, any]);
    let name = if scribe.random.one_in(2) { scribe.topic() } else { scribe.any(|scribe| &scribe.patterns) };
    scribe.message(kind, &name);
}

/// A message whose claimed lengths are not those of what is lent, by little or by much.
fn claimed(scribe: &mut Scribe) {
    scribe.step();
    let kind = scribe.random.pick(&[CONNECT, PUBLISH, PUBLISH, PUBLISH, SUBSCRIBE, 10, 12]);
    let (mut topic, payload, size) = (scribe.topic(), scribe.payload(), scribe.size());
    if scribe.random.one_in(4) {
        topic = vec![b'a'; scribe.random.pick(&[127, 128])];
    }
    let far = scribe.random.pick(&[0, 127, 128, 129, 255]);
    let topic_len =
        scribe.random.pick(&[topic.len(), topic.len(), topic.len() + 1, topic.len().saturating_sub(1), far]);
    let far = scribe.random.pick(&[0, 255, 256, 257, 65_535]);
    let near = payload.len().saturating_sub(1);
    let payload_len = scribe.random.pick(&[payload.len(), payload.len(), payload.len() + 1, near, far]);
    let (now, clock, qos) = (scribe.now, scribe.random.pick(&["ok", "bad"]), scribe.random.below(3));
    let (topic, payload) = (arg(&topic), arg(&payload));
    scribe
        .line(format!("inspect_claimed {now} {clock} {kind} {qos} {topic} {size} {payload} {topic_len} {payload_len}"));
}

fn remove_bucket(scribe: &mut Scribe) {
    let topic = scribe.topic();
    scribe.remove_bucket_of(&topic);
}

fn remove_tracker(scribe: &mut Scribe) {
    let topic = scribe.topic();
    scribe.line(format!("remove_ewma_tracker {}", arg(&topic)));
}

fn reset(scribe: &mut Scribe) {
    scribe.line("reset_state".into());
}

fn ask_counters(scribe: &mut Scribe) {
    scribe.line("counters".into());
}

/// A monitor anew, of either default.
fn anew(scribe: &mut Scribe) {
    let line = scribe.random.pick(&[NEW, NEW_DENY_DEFAULT]);
    scribe.line(line.into());
}

/// Every call that a state may be refused to.
const CHANGES: [Turn; 19] = [
    add_rule,
    remove_rule,
    swap_rules,
    clear_rules,
    validate_rules,
    set_storm,
    publish,
    connect,
    any_type,
    claimed,
    remove_bucket,
    remove_tracker,
    reset,
    ask_standing,
    ask_tokens,
    reload,
    queue,
    ask_covered,
    ask_name,
];

fn every_call(scribe: &mut Scribe) {
    scribe.turns_of_all(&[
        (8, add_rule),
        (8, publish),
        (4, connect),
        (2, any_type),
        (2, claimed),
        (1, ask_counters),
        (1, anew),
    ]);
}

/// A table that is full or nearly, in every order.
fn rules(scribe: &mut Scribe) {
    let known = scribe.random.pick(&[0, 5, 30, 31, 32, 33]);
    let mut fill: Vec<Vec<u8>> = (0..known).map(|i| format!("a/{i}").into_bytes()).collect();
    if scribe.random.one_in(2) {
        fill.reverse();
    }
    for pattern in &fill {
        scribe.rule(pattern, "allow", "any", 1);
    }
    scribe.patterns.extend(fill.iter().take(6).cloned());
    scribe.topics.extend(fill.into_iter().take(6));
    scribe.turns(&[(5, add_rule), (2, remove_rule), (2, swap_rules), (1, validate_rules), (2, publish), (1, any_type)]);
    if scribe.random.one_in(2) {
        scribe.line("clear_rules".into());
        scribe.turns(&[(1, add_rule), (1, remove_rule), (1, validate_rules)]);
    }
}

/// Up to 34 identities, filled with steps between them or at one instant.
fn buckets(scribe: &mut Scribe) {
    let rate = scribe.random.pick(&[1, 2, 3, 65_535]);
    scribe.rule(b"#", "allow", "any", rate);
    let known = scribe.random.pick(&[1, 3, 31, 32, 33, 34]);
    scribe.topics = (0..known).map(|i| format!("m/{i}").into_bytes()).collect();
    let step = scribe.random.pick(&[0, 1, 1000, 5_000_000]);
    for topic in scribe.topics.clone() {
        scribe.message_of(PUBLISH, &topic, 0, b"");
        scribe.now = scribe.now.saturating_add(step);
    }
    scribe.topics.extend(words(&["m/40", "m/41"]));
    scribe.patterns = words(&["#", "m/+", "m/1"]);
    scribe.rates = vec![0, 1, 2, 3, 1000, 65_535];
    scribe.turns(&[
        (12, publish),
        (3, publish_at_expiry),
        (3, ask_standing),
        (3, ask_tokens),
        (1, remove_bucket),
        (1, add_rule),
        (1, swap_rules),
        (1, any_type),
    ]);
    if scribe.random.one_in(4) {
        scribe.line("reset_state".into());
        scribe.turns(&[(1, publish), (1, remove_bucket)]);
    }
}

/// Up to 18 clients and more, some of them alike in one hash or two.
fn clients(scribe: &mut Scribe) {
    let pairs = scribe.pairs;
    let mut clients = [&pairs.apart[0][..], &pairs.by_length[0], &pairs.by_djb2[0]].concat();
    clients.extend([reblocked(&pairs.apart[0][0]), LIKE_NOBODY.to_vec(), vec![]]);
    clients.extend((0..14).map(|i| format!("client {i}").into_bytes()));
    let known = scribe.random.pick(&[1, 2, 16, 18, 20, 23]);
    clients.rotate_left(scribe.random.below(23));
    clients.truncate(known);
    scribe.clients = clients.clone();
    let fill = if scribe.random.one_in(2) { clients } else { vec![] };
    for client in fill {
        scribe.now = scribe.now.saturating_add(scribe.random.pick(&[0, 1, 20_000_000]));
        scribe.message_of(CONNECT, &client, 0, b"");
    }
    scribe.turns(&[(14, connect), (2, set_storm), (1, publish), (1, any_type)]);
    if scribe.random.one_in(4) {
        scribe.line("reset_state".into());
        scribe.turns(&[(1, connect), (1, set_storm)]);
    }
}

/// Up to 18 topics, warmed up or not.
fn trackers(scribe: &mut Scribe) {
    let known = scribe.random.pick(&[1, 2, 3, 15, 16, 17, 18]);
    scribe.topics = (0..known).map(|i| format!("t{i}").into_bytes()).collect();
    let base = scribe.random.pick(&[1, 10, 64, 256, 257, 65_535]);
    let rounds = if known < 4 { 8 } else { 1 };
    for _ in 0..rounds {
        for topic in scribe.topics.clone() {
            scribe.now = scribe.now.saturating_add(scribe.random.pick(&[0, 1]));
            scribe.message_of(PUBLISH, &topic, base, b"");
        }
    }
    scribe.turns(&[(14, publish), (1, remove_tracker), (1, add_rule), (1, any_type)]);
    if scribe.random.one_in(4) {
        scribe.line("reset_state".into());
        scribe.turns(&[(1, publish), (1, remove_tracker)]);
    }
}

/// Two topics of equal hashes, and one that is near: as topics, clients and patterns.
fn equal_hashes(scribe: &mut Scribe) {
    let pair = scribe.pairs.pick(&mut scribe.random);
    let near = reblocked(&pair[0]);
    scribe.topics = vec![pair[0].clone(), pair[1].clone(), near];
    scribe.clients = scribe.topics.clone();
    scribe.patterns = [&scribe.topics[..], &words(&["#", "+"])].concat();
    scribe.rates = vec![1, 2, 3];
    scribe.rule(b"#", "allow", "any", 1);
    scribe.turns_of_all(&[(10, publish), (2, remove_bucket), (2, remove_tracker), (3, connect)]);
}

/// A mean at its ceiling, a spent bucket and a policy that is mostly broken: with a bad verdict, four alerts.
fn many_alerts(scribe: &mut Scribe) {
    scribe.rule(b"#", "allow", "only2", 1);
    for _ in 0..8 {
        scribe.message_of(PUBLISH, b"a", 65_535, b"");
    }
    scribe.topics = words(&["a", "a", "b"]);
    scribe.good = 1;
    scribe.turns(&[(20, publish), (2, any_type), (1, connect), (1, ask_counters), (1, remove_bucket)]);
}

/// Names with wildcards, dollar signs, zero bytes and empty levels, in every packet type.
fn names(scribe: &mut Scribe) {
    scribe.patterns = words(&["#", "+", "+/#", "$SYS/#", "$SYS/+", "$share/#", "/+", "a/#", "a/+", "+/a", "+/+"]);
    scribe.topics = words(&[
        "", "a", "/", "//", "a/", "/a", "a/a", "#", "+", "+/#", "+/+", "a/#", "+a", "$", "$SYS", "$SYS/", "$SYS/a",
        "$SYS/+", "a\0b", "\0",
    ]);
    scribe.topics.extend([31, 32, 33, 127, 128].map(|len| vec![b'a'; len]));
    scribe.turns(&[(10, any_type), (4, claimed), (2, add_rule), (1, remove_rule), (1, swap_rules)]);
}

/// Counters just below where they end or wrap.
fn counters(scribe: &mut Scribe) {
    scribe.rule(b"a/#", "block", "any", 0);
    let near: Turn = |scribe| {
        let field = scribe.random.pick(&["next_id", "total_inspected", "total_alerts"]);
        let value = scribe.random.pick(&[0, 1, u64::MAX - 2, u64::MAX - 1, u64::MAX]);
        scribe.line(format!("{field} {value}"));
    };
    for _ in 0..3 {
        near(scribe);
    }
    scribe.turns_of_all(&[(2, near), (1, ask_counters), (8, publish), (8, any_type)]);
}

/// A place of a table, mostly one of the first.
fn some_place(scribe: &mut Scribe, places: usize) -> usize {
    let most = if scribe.random.one_in(4) { places } else { 3 };
    scribe.random.below(most)
}

/// Mostly a place that is held, where there is one.
fn held_place(scribe: &mut Scribe, places: usize, held: fn(&MqttMonitor, usize) -> bool) -> usize {
    let monitor = &scribe.play.original.monitor;
    let all: Vec<usize> = (0..places).filter(|&place| held(monitor, place)).collect();
    if all.is_empty() || scribe.random.one_in(4) { some_place(scribe, places) } else { scribe.random.pick(&all) }
}

/// Something that no call leaves, which is taken away again or stays.
fn spoil(scribe: &mut Scribe) {
    let rule = held_place(scribe, 32, |monitor, place| place < monitor.rule_count());
    let bucket = held_place(scribe, 32, |monitor, place| state::bucket(monitor, place).is_some());
    let tracker = held_place(scribe, 16, |monitor, place| state::tracker(monitor, place).is_some());
    let window = held_place(scribe, 16, |monitor, place| state::window(monitor, place).is_some());
    let count = scribe.play.original.monitor.rule_count();
    // Mostly a free place, which may have any remainder.
    let free = 3 + scribe.random.below(29);
    let remainder: u32 = scribe.random.pick(&[999_999, 1_000_000, u32::MAX]);
    let line = match scribe.random.below(9) {
        0 => format!("rule_count {}", scribe.random.pick(&[count + 1, 31, 32, 33, 65_535])),
        1 => format!("rule_live {rule} 0"),
        2 => format!("rule_length {rule} {}", scribe.random.pick(&[0, 1, 63, 64, 65, 255])),
        3 => {
            let string = scribe.random.pick(&BROKEN);
            let broken = among(string, scribe.random.below(5));
            let bad: [&[u8]; 9] = [b"a+", b"#/a", b"a#", b"++", b"a\0", b"+/+/+/+", b"", &broken, &broken];
            format!("rule_pattern {rule} {}", arg(scribe.random.pick(&bad)))
        }
        4 => format!("bucket_prefix {bucket} {}", scribe.random.pick(&[31, 32, 33, 255])),
        5 => format!("tracker_prefix {tracker} {}", scribe.random.pick(&[31, 32, 33, 255])),
        6 => format!("window_count {window} {}", scribe.random.pick(&[15, 16, 17, 255])),
        7 => format!("remainder {} {remainder}", scribe.random.pick(&[bucket, bucket, free])),
        _ => format!("bucket_live {bucket} {}", scribe.random.below(2)),
    };
    scribe.line(line);
}

/// What makes most states good again.
fn mend(scribe: &mut Scribe) {
    let count = scribe.play.original.monitor.rule_count().min(3);
    scribe.line(format!("rule_count {count}"));
    for rule in 0..count {
        scribe.line(format!("rule_pattern {rule} {}", arg(format!("r{rule}").as_bytes())));
        scribe.line(format!("rule_live {rule} 1"));
    }
    for place in 0..3 {
        scribe.line(format!("bucket_prefix {place} 3"));
        scribe.line(format!("remainder {place} 0"));
        scribe.line(format!("tracker_prefix {place} 3"));
        scribe.line(format!("window_count {place} 4"));
    }
}

/// Some rules and records, then one thing spoilt, every call tried, and mended.
fn number_10(scribe: &mut Scribe) {
    // So that there are buckets.
    scribe.rule(b"+", "allow", "any", 2);
    for _ in 0..12 {
        let turns: [Turn; 5] = [add_rule, add_rule, publish, publish, connect];
        scribe.random.pick(&turns)(scribe);
    }
    for _ in 0..3 {
        spoil(scribe);
        for turn in CHANGES {
            turn(scribe);
        }
        mend(scribe);
        for _ in 0..4 {
            scribe.random.pick(&CHANGES)(scribe);
        }
    }
}

/// A field of a record, or a setting, that number 10 does not look at.
fn set_record(scribe: &mut Scribe) {
    let (rule, place) = (some_place(scribe, 32), some_place(scribe, 16));
    let flag = scribe.random.below(2);
    let any = scribe.random.below(1_000_000);
    let line = match scribe.random.below(17) {
        0 | 14 => format!("tokens {rule} {}", scribe.random.pick(&[0, 1, 2, 3, 65_534, 65_535])),
        1 => format!("bucket_live {rule} {flag}"),
        2 => format!("bucket_prefix {rule} {}", scribe.random.pick(&[0, 1, 2, 31, 32])),
        3 => format!("tracker_live {place} {flag}"),
        4 => format!("tracker_prefix {place} {}", scribe.random.pick(&[0, 1, 2, 31, 32])),
        5 => {
            let means = [0, 1, 63, 64, 255, 256, 65_535, 65_536, 65_537, 524_288, 19_173_961, 1 << 30, u32::MAX];
            format!("mean {place} {}", scribe.random.pick(&means))
        }
        6 | 7 => format!("samples {place} {}", scribe.random.pick(&[0, 1, 6, 7, 8, 9, 254, 255])),
        8 => format!("window_count {place} {}", scribe.random.pick(&[0, 1, 4, 15, 16])),
        9 => format!("window_next {place} {}", scribe.random.pick(&[0, 1, 15, 16, 17, 255])),
        10 => format!("threshold {}", scribe.random.pick(&[0, 1, 2, 17, 255])),
        11 => format!("window {}", scribe.random.pick(&[0, 1, 60_000_000, u64::MAX])),
        12 | 13 => format!("remainder {rule} {}", scribe.random.pick(&[0, 1, 999_998, 999_999, any, any])),
        // Rules that are no longer counted, over which others are added.
        _ => {
            let count = scribe.play.original.monitor.rule_count();
            format!("rule_count {}", scribe.random.below(count + 1))
        }
    };
    scribe.line(line);
}

fn records(scribe: &mut Scribe) {
    scribe.topics = words(&["a/b", "b", "c"]);
    scribe.rule(b"+", "allow", "any", 2);
    scribe.turns_of_all(&[(30, set_record), (50, publish), (12, connect), (12, add_rule)]);
}

/// Near the time of a token, by seconds, or seldom for so long that buckets expire.
fn wait(scribe: &mut Scribe) {
    let token = 1_000_000 / u64::from(scribe.rates[0]);
    let second = 1_000_000;
    let steps = [1, 1, token - 1, token, token, token + 1, second, second, 3 * second, 300 * second];
    scribe.now = scribe.now.saturating_add(scribe.random.pick(&steps));
}

/// A burst, its bucket removed, and a burst again.
fn burst_and_again(scribe: &mut Scribe) {
    let topic = scribe.topic();
    scribe.burst(&topic);
    for _ in 0..1 + scribe.random.below(2) {
        scribe.remove_bucket_of(&topic);
        scribe.burst(&topic);
    }
}

/// The oldest bucket is replaced, if newcomers find a table that is full or nearly; another's removal frees a place, and
/// the topic that was replaced comes again.
fn replace_and_again(scribe: &mut Scribe) {
    let buckets = || (0..32).filter_map(|place| state::bucket(&scribe.play.original.monitor, place));
    let (held, oldest) = (buckets().count(), buckets().min_by_key(|bucket| bucket.at));
    let holds = |topic: &&Vec<u8>| buckets().any(|bucket| bucket.id.hash == fnv1a_hash(topic));
    let mut holders: Vec<Vec<u8>> = scribe.topics.iter().filter(holds).cloned().collect();
    let is_oldest = |topic: &Vec<u8>| oldest.as_ref().is_some_and(|oldest| oldest.id.hash == fnv1a_hash(topic));
    let Some(replaced) = holders.iter().position(is_oldest) else { return publish(scribe) };
    let replaced = holders.swap_remove(replaced);
    scribe.now = scribe.now.saturating_add(1);
    for _ in held.max(29)..33 {
        let newcomer = format!("n/{}", scribe.random.below(1000));
        scribe.message_of(PUBLISH, newcomer.as_bytes(), 0, b"");
    }
    let other = scribe.random.below(holders.len().max(1));
    scribe.remove_bucket_of(holders.get(other).unwrap_or(&replaced));
    scribe.burst(&replaced);
}

/// A topic that holds nothing.
fn remove_nothing(scribe: &mut Scribe) {
    let topic = scribe.random.pick(&[&b"m"[..], b"m/", b"m/00", b"-", b""]);
    scribe.remove_bucket_of(topic);
}

/// Only calls between which request C-24 promises a bound: no rule changes, and the clock never goes back. Few topics,
/// two of equal hashes, or about as many as there are buckets.
fn removals(scribe: &mut Scribe) {
    scribe.forward = true;
    let crowd = 31 + scribe.random.below(6);
    let known = scribe.random.pick(&[1, 2, 3, crowd, crowd]);
    scribe.topics = (0..known).map(|i| format!("m/{i}").into_bytes()).collect();
    if scribe.random.one_in(5) {
        scribe.topics = scribe.pairs.pick(&mut scribe.random).to_vec();
    }
    let (first, last) = (scribe.topics[0].clone(), scribe.topics[scribe.topics.len() - 1].clone());
    let patterns = [&first[..], &last, b"#"];
    scribe.rates.clear();
    for pattern in &patterns[scribe.random.below(3)..] {
        let (policy, rate) = (scribe.random.pick(&POLICIES), scribe.random.pick(&[1, 1, 1, 2, 2, 3, 5, 1000, 65_535]));
        scribe.rule(pattern, "allow", policy, rate);
        scribe.rates.push(rate);
    }
    for topic in scribe.topics.clone() {
        match scribe.random.below(3) {
            0 => scribe.burst(&topic),
            _ => scribe.message_of(PUBLISH, &topic, 0, b""),
        }
    }
    // Those of a crowd that come first have just passed, and are the oldest.
    if scribe.topics.len() > 3 {
        replace_and_again(scribe);
        replace_and_again(scribe);
    }
    // Most of them are several lines.
    scribe.some_turns(
        TURNS / 5,
        &[
            (2, wait),
            (3, burst_and_again),
            (3, replace_and_again),
            (1, publish),
            (1, claimed),
            (1, connect),
            (1, remove_bucket),
            (1, remove_nothing),
            (1, remove_tracker),
            (1, set_storm),
            (1, validate_rules),
            (1, ask_counters),
            (1, ask_standing),
            (1, ask_tokens),
            (1, ask_covered),
            (1, queue),
        ],
    );
}
