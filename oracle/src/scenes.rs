//! Random traces, one maker for each thing that the monitor does. A maker aims at the edges of its subject; what it
//! then really met is counted by the comparison, and `MAKERS` names what each must have met.

use crate::make::{BROKEN, EDGES, LIKE_NOBODY, among, pattern, topic};
use crate::pairs::{Pairs, reblocked};
use crate::tally::Random;
use clock_types::TimestampValidator;
use std::io::Write;
use trace::LONGEST;
use trace::rules::refusal;

pub const CONNECT: u8 = 1;
pub const PUBLISH: u8 = 3;
pub const SUBSCRIBE: u8 = 8;
const UNSUBSCRIBE: u8 = 10;
const POLICIES: [&str; 7] = ["any", "min0", "min1", "min2", "only0", "only1", "only2"];

/// One maker: its name, itself, and the counters (of traces.rs) that must have moved.
pub type Maker = (&'static str, fn(&mut Scene), &'static [&'static str]);

pub const MAKERS: &[Maker] = &[
    ("bursts over more than 32 identities", bursts, &["kind 5", "bucket replaced"]),
    ("expiry around 300 s", expiry, &["bucket replaced", "bucket expired"]),
    ("a clock that goes back", clock_back, &["kind 1", "kind 5", "kind 7"]),
    ("rates 1 to 65535", rates, &["kind 5", "bucket replaced"]),
    ("CONNECT storms", connects, &["kind 1", "client replaced"]),
    ("payload trackers", trackers, &["kind 7", "tracker replaced"]),
    ("topic lengths", lengths, &["kind 2", "kind 5", "kind 7"]),
    ("equal hashes", equal_hashes, &["kind 1", "kind 5", "kind 7"]),
    ("wildcards and dollar names in every type", signs, &["kind 3", "kind 9", "kind 10", "kind 11"]),
    ("every QoS policy", policies, &["kind 3", "kind 4"]),
    ("blocks with and without payload", blocks, &["kind 3"]),
    ("many alerts at once", many_alerts, &["four alerts at once"]),
    ("up to 32 rules", rule_tables, &["kind 3", "kind 4", "end 9", "end 36"]),
    ("all at once", mixture, &["kind 8"]),
    ("around the longest text", longest, &["end 0", "end 27"]),
    ("small", small, &["end 0"]),
];

/// The maker of names on which the port and MQTT 3.1.1 differ, in the three types that have rules.
pub const APART: Maker = ("dollar names and empty last levels", apart, &["kind 3", "kind 4", "kind 5", "kind 10"]);

/// The maker for the original's own TimestampValidator.
pub const CLOCK: Maker = ("the original's own verdicts", real_clock, &["kind 1", "kind 5", "kind 8"]);

/// The maker of traces on which the original's own buckets agree with those of request C-17.
pub const MARKS: Maker =
    ("times on whole token marks", marks, &["kind 5", "bucket replaced", "bucket expired", "clock back"]);

/// The maker of traces on which they mostly do not.
pub const GUIDERS: Maker = ("guiders at a steady pace", guiders, &["kind 5", "remainder kept", "clock back"]);

/// The maker of the one trace that the programs are measured with.
pub const NIGHT: Maker = ("a full night", night, &[]);

/// A trace in the making.
pub struct Scene<'a> {
    pub random: Random,
    pairs: &'a Pairs,
    /// Decides the verdicts; without it they are good 15 times in 16.
    clock: Option<TimestampValidator>,
    full: bool,
    text: Vec<u8>,
}

pub struct Rule {
    pattern: Vec<u8>,
    block: bool,
    qos: &'static str,
    rate: u16,
}

pub fn allow(pattern: &[u8], rate: u16) -> Rule {
    Rule { pattern: pattern.to_vec(), block: false, qos: "any", rate }
}

fn hex(bytes: &[u8]) -> String {
    bytes.iter().map(|byte| format!("{byte:02x}")).collect()
}

/// One trace of a maker.
pub fn make(maker: &Maker, seed: u64, pairs: &Pairs) -> Vec<u8> {
    let clock = (maker.0 == CLOCK.0).then(TimestampValidator::new);
    let mut scene = Scene { random: Random(seed), pairs, clock, full: false, text: Vec::new() };
    maker.1(&mut scene);
    scene.text
}

/// The same trace without the limiter: the rate of every rule is 0.
pub fn unlimited(text: &[u8]) -> Vec<u8> {
    let lines = text.split_inclusive(|&byte| byte == b'\n');
    lines.flat_map(|line| if line.starts_with(b"rate=") { b"rate=0\n" } else { line }).copied().collect()
}

/// Messages of topics by their number, at their times, under one rate.
pub fn limited(rate: u16, messages: &[(u64, usize)]) -> Vec<u8> {
    let mut text = format!("default=allow\nrules=1\npattern=23\naction=allow\nqos=any\nrate={rate}\n").into_bytes();
    for (at, topic) in messages {
        let topic = hex(topic.to_string().as_bytes());
        write!(text, "at={at}\nclock=ok\ntype=3\nqos=0\ntopic={topic}\nsize=0\npayload=\n").unwrap();
    }
    text
}

/// Full tables of rules, in which one pattern is odd, at each place in turn: no UTF-8, alone or with another fault; or
/// UTF-8 of more than one byte a character, which is no fault.
pub fn odd_patterns(pairs: &Pairs) -> Vec<Vec<u8>> {
    let mut odd: Vec<Vec<u8>> = BROKEN.iter().enumerate().map(|(way, string)| among(string, way)).collect();
    odd.extend([b"+/+/+/+/\xff".to_vec(), b"a#\xff".to_vec(), b"a\0\xff".to_vec(), b"\xff\0".to_vec()]);
    odd.extend([[&[b'a'; 63][..], b"\xff"].concat(), [&[b'a'; 64][..], b"\xff"].concat()]);
    odd.extend(EDGES.iter().enumerate().map(|(way, string)| among(string.as_bytes(), way)));
    let places = (0..32).flat_map(|place| odd.iter().map(move |pattern| (place, pattern)));
    places
        .map(|(place, pattern)| {
            let mut scene = Scene { random: Random(place as u64), pairs, clock: None, full: false, text: Vec::new() };
            let mut rules: Vec<Rule> = (0..32).map(|k| allow(format!("r/{k}/+").as_bytes(), 1)).collect();
            rules[place] = allow(pattern, 1);
            scene.opening(0, &rules);
            for at in 0..3 {
                let name = topic(&mut scene.random, pattern, pattern.len());
                scene.publish(at, &name);
            }
            scene.text
        })
        .collect()
}

impl Scene<'_> {
    /// Writes the opening; the default is block once in `blocks` times, never for 0.
    pub fn opening(&mut self, blocks: usize, rules: &[Rule]) {
        let word = |block| if block { "block" } else { "allow" };
        let block = blocks > 0 && self.random.one_in(blocks);
        write!(self.text, "default={}\nrules={}\n", word(block), rules.len()).unwrap();
        for Rule { pattern, block, qos, rate } in rules {
            let (pattern, action) = (hex(pattern), word(*block));
            write!(self.text, "pattern={pattern}\naction={action}\nqos={qos}\nrate={rate}\n").unwrap();
        }
    }

    /// Adds a message, unless the text would grow too long; then no more follow.
    pub fn message(&mut self, kind: u8, at: u64, topic: &[u8], size: u16, payload: &[u8]) {
        let good = match &mut self.clock {
            Some(clock) => clock.validate(at),
            None => !self.random.one_in(16),
        };
        let (clock, qos) = (if good { "ok" } else { "bad" }, self.random.below(3));
        let (topic, payload) = (hex(topic), hex(payload));
        let lines =
            format!("at={at}\nclock={clock}\ntype={kind}\nqos={qos}\ntopic={topic}\nsize={size}\npayload={payload}\n");
        self.full |= self.text.len() + lines.len() > LONGEST;
        if !self.full {
            self.text.extend(lines.as_bytes());
        }
    }

    pub fn publish(&mut self, at: u64, topic: &[u8]) {
        let size = self.random.pick(&[0, 0, 1, 65_535]);
        self.message(PUBLISH, at, topic, size, b"");
    }

    fn payload(&mut self) -> Vec<u8> {
        let len = self.random.pick(&[0, 0, 0, 1, 2, 31, 32, 64, 255, 256]);
        (0..len).map(|_| self.random.next() as u8).collect()
    }

    fn size(&mut self) -> u16 {
        let any = self.random.next() as u16;
        self.random.pick(&[0, 1, 2, 10, 40, 41, 255, 256, 257, 65_534, 65_535, any])
    }

    /// Fills what is left up to `goal`, some 100 to 600 bytes, with one or two messages: a payload by two digits a byte, the
    /// time by one more digit.
    fn fill(&mut self, goal: usize) {
        let least = "at=1\nclock=ok\ntype=3\nqos=0\ntopic=\nsize=0\npayload=\n".len();
        while self.text.len() < goal {
            let room = goal - self.text.len() - least;
            let payload = if room > 512 { "61".repeat(100) } else { "61".repeat(room / 2) };
            let at = if room <= 512 && room % 2 == 1 { "10" } else { "1" };
            write!(self.text, "at={at}\nclock=ok\ntype=3\nqos=0\ntopic=\nsize=0\npayload={payload}\n").unwrap();
        }
    }
}

fn bursts(scene: &mut Scene) {
    let rate = scene.random.pick(&[1, 2, 3, 10, 1000, 65_535]);
    scene.opening(0, &[allow(b"m/+", rate)]);
    let topics = 30 + scene.random.below(16);
    let mut now = 0;
    for _ in 0..200 {
        now += scene.random.below(300_000) as u64;
        let topic = format!("m/{}", scene.random.below(topics));
        scene.publish(now, topic.as_bytes());
    }
}

/// Fills all 32 places, then comes back 300 s after one of the times seen, or just before or after that.
fn expiry(scene: &mut Scene) {
    let rate = scene.random.pick(&[1, 2, 50]);
    scene.opening(0, &[allow(b"#", rate)]);
    let step = scene.random.pick(&[0, 1, 1000, 5_000_000]);
    let start = scene.random.pick(&[0, 1, 1_000_000, u64::MAX - 1_000_000_000]);
    let mut times = Vec::new();
    for i in 0..32 {
        times.push(start + i * step);
        scene.publish(start + i * step, format!("{i}").as_bytes());
    }
    for i in 32..92 {
        let mark = scene.random.pick(&times);
        let now = mark.saturating_add(299_999_998 + scene.random.below(5) as u64);
        let identity = if scene.random.one_in(3) { scene.random.below(i) } else { i };
        times.push(now);
        scene.publish(now, format!("{identity}").as_bytes());
    }
}

fn clock_back(scene: &mut Scene) {
    let rate = scene.random.pick(&[1, 2, 3]);
    scene.opening(0, &[allow(b"#", rate)]);
    let topics = scene.random.pick(&[1, 3, 40]);
    let mut now = scene.random.pick(&[0, 1_000_000_000, u64::MAX - 10]);
    for _ in 0..150 {
        let step = scene.random.pick(&[0, 1, 1000, 400_000, 1_000_000, 60_000_000, 300_000_001, 4_000_000_000]);
        now = if scene.random.one_in(2) { now.saturating_sub(step) } else { now.saturating_add(step) };
        let topic = format!("t{}", scene.random.below(topics));
        let (kind, size) = (scene.random.pick(&[CONNECT, PUBLISH, PUBLISH, PUBLISH]), scene.size());
        scene.message(kind, now, topic.as_bytes(), size, b"");
    }
}

/// A bucket that took another's place starts empty, so that the largest rate runs dry too; then steps around the
/// time of one token.
fn rates(scene: &mut Scene) {
    let rate: u16 = scene.random.pick(&[1, 2, 3, 7, 1000, 65_534, 65_535]);
    scene.opening(0, &[allow(b"#", rate)]);
    for i in 0..33 {
        scene.publish(0, format!("{i}").as_bytes());
    }
    let unit = 1_000_000 / u64::from(rate);
    let mut steps = vec![0, 1, unit - 1, unit, unit + 1, 2 * unit];
    if rate < 10 {
        steps.extend([500_000, 999_999, 1_000_000, 1_000_001, 5_000_000]);
    }
    let mut now = 0;
    for _ in 0..120 {
        now += scene.random.pick(&steps);
        scene.publish(now, b"32");
    }
}

/// The shortest time that earns whole tokens.
fn mark(rate: u16) -> u64 {
    let (mut divisor, mut rest) = (1_000_000, u64::from(rate));
    while rest > 0 {
        (divisor, rest) = (rest, divisor % rest);
    }
    1_000_000 / divisor
}

/// A Publish of a limited topic comes at a mark of its rate, so that a refill leaves no part of a token; all else comes
/// at any time. The clock goes on at the pace of the first rate, to the end of a bucket or past it, or back. There may
/// be more topics than places.
fn marks(scene: &mut Scene) {
    let rates = [(); 4].map(|()| scene.random.pick(&[1, 1, 2, 3, 4, 5, 7, 8, 10, 100, 1000, 65_534, 65_535]));
    let limited = |(i, &rate): (usize, &u16)| allow(format!("r{i}/+").as_bytes(), rate);
    let mut rules: Vec<Rule> = rates.iter().enumerate().map(limited).collect();
    rules[0].qos = scene.random.pick(&POLICIES);
    rules.extend([allow(b"free/+", 0), Rule { block: true, ..allow(b"no/#", 1) }]);
    scene.opening(0, &rules);
    let topics = scene.random.pick(&[1, 2, 12, 40]);
    let mut now: u64 = scene.random.pick(&[0, 1_000_000_000, u64::MAX - 100_000_000_000]);
    for _ in 0..250 {
        let rule = scene.random.below(4);
        let (mark, pace) = (mark(rates[rule]), mark(rates[0]));
        let far = [1_000_000, 20_000_000, 300_000_000, 300_000_000 + mark];
        let step = match scene.random.below(30) {
            0 => scene.random.pick(&far),
            1..4 => pace,
            4..6 => 2 * pace,
            _ => 0,
        };
        now = if scene.random.one_in(8) { now.saturating_sub(step) } else { now + step };
        let topic = format!("r{rule}/{}", scene.random.below(topics));
        let any = scene.random.pick(&["free/a", "no/a", "r0/+", "$a", "r1/0", ""]).as_bytes();
        let (size, payload, later) = (scene.size(), scene.payload(), now + scene.random.below(1000) as u64);
        match scene.random.below(10) {
            0 => scene.message(CONNECT, later, any, size, &payload),
            1 => scene.message(SUBSCRIBE, later, any, size, &payload),
            2 => scene.message(PUBLISH, later, b"free/a", size, &payload),
            _ => scene.message(PUBLISH, now / mark * mark, topic.as_bytes(), size, &payload),
        }
    }
}

/// Topics that publish at a steady pace around their rate once the first burst is spent, no more of them than there are
/// places: most refills leave a part of a token.
fn guiders(scene: &mut Scene) {
    let rate: u16 = scene.random.pick(&[1, 2, 3, 5, 7, 10, 30]);
    scene.opening(0, &[allow(b"guider/+", rate)]);
    let topics = if rate < 4 { scene.random.pick(&[1, 2, 32]) } else { 1 };
    let token = 1_000_000 / usize::from(rate);
    let pace = (token / 4 + scene.random.below(2 * token)) as u64 / topics;
    let mut now = scene.random.pick(&[0, 1_000_000, 1 << 40]);
    for turn in 0..u64::from(rate) * topics {
        scene.publish(now, format!("guider/{}", turn % topics).as_bytes());
    }
    for turn in 0..150 {
        now += pace;
        let at = if scene.random.one_in(16) { now.saturating_sub(3 * pace) } else { now };
        scene.publish(at, format!("guider/{}", turn % topics).as_bytes());
    }
}

/// Rounds of four CONNECTs of one client and a fifth when the first leaves the window, others between them. Now and
/// then all clients come at one instant, or the clock goes back to an earlier round.
fn connects(scene: &mut Scene) {
    scene.opening(2, &[]);
    let pairs = scene.pairs;
    let mut clients = [&pairs.apart[0][..], &pairs.by_length[0], &pairs.by_djb2[0]].concat();
    clients.extend([reblocked(&pairs.apart[0][0]), LIKE_NOBODY.to_vec(), vec![]]);
    clients.extend((0..15).map(|i| format!("client {i}").into_bytes()));
    let known = scene.random.pick(&[1, 4, 9, 16, 17, 24]);
    clients.rotate_left(scene.random.below(24));
    clients.truncate(known);
    let mut starts = vec![scene.random.pick(&[0, 1_000_000, 10_000_000_000])];
    for _ in 0..30 {
        let back = scene.random.below(starts.len());
        let start = if scene.random.one_in(6) { starts[back] } else { starts[starts.len() - 1] };
        if scene.random.one_in(6) {
            clients.iter().for_each(|client| scene.message(CONNECT, start, client, 0, b""));
        }
        let client = &clients[scene.random.below(known)];
        let mut offsets: Vec<u64> = (0..3).map(|_| scene.random.below(60_000_000) as u64).collect();
        offsets.sort_unstable();
        let last = 59_999_999 + scene.random.below(3) as u64;
        for offset in [0, offsets[0], offsets[1], offsets[2], last] {
            scene.message(CONNECT, start + offset, client, 0, b"");
            if scene.random.one_in(3) {
                let kind = scene.random.pick(&[CONNECT, CONNECT, PUBLISH, 14]);
                let other = &clients[scene.random.below(known)];
                scene.message(kind, start + offset, other, 0, b"");
            }
        }
        starts.push(start + scene.random.pick(&[0, 1, 60_000_000, 60_000_001, 200_000_000]));
    }
}

/// The mean of one topic as document 01 has it, to aim sizes at its threshold.
#[derive(Clone, Copy, Default)]
struct Mean {
    scaled: u32,
    samples: u32,
}

impl Mean {
    fn threshold(self) -> u32 {
        if self.samples < 8 { 0 } else { self.scaled * 4 / 256 }
    }

    fn feed(&mut self, size: u32) {
        self.scaled = match self.samples {
            0 => size * 256,
            1..=6 => (self.scaled + size * 256).min(8 * 65_536),
            7 => (self.scaled + size * 256) / 8,
            _ => (size * 32 + 224 * self.scaled / 256).min(65_536),
        };
        self.samples += 1;
    }
}

fn trackers(scene: &mut Scene) {
    let rate = scene.random.pick(&[0, 1, 65_535]);
    scene.opening(0, &[allow(b"#", rate)]);
    let topics = scene.random.pick(&[1, 2, 15, 16, 17, 20]);
    let base = scene.random.pick(&[1, 2, 10, 64, 255, 256, 257, 512, 2048, 65_535]);
    let mut means = vec![Mean::default(); topics];
    let back = scene.random.one_in(2);
    let mut now: u64 = 5000;
    for _ in 0..if topics == 1 { 400 } else { 250 } {
        let step: u64 = scene.random.pick(&[0, 0, 1, 1000]);
        now = if back && scene.random.one_in(2) { now.saturating_sub(step) } else { now + step };
        let choice = scene.random.below(topics);
        let threshold = means[choice].threshold();
        let aimed =
            [threshold, threshold + 1, 4 * base, 4 * base + 1, scene.size().into(), 0, 1, base, base, base, base];
        let size = scene.random.pick(&aimed).min(65_535);
        if size > 0 {
            means[choice].feed(size);
        }
        let payload = if scene.random.one_in(4) { scene.payload() } else { vec![] };
        scene.message(PUBLISH, now, format!("{choice}").as_bytes(), size as u16, &payload);
    }
}

/// Topics of the lengths around which the identity changes, that differ in one byte or in none.
fn lengths(scene: &mut Scene) {
    let rate = scene.random.pick(&[0, 1, 3]);
    scene.opening(4, &[allow(b"#", rate)]);
    let mut now = 0;
    for _ in 0..150 {
        now += scene.random.below(200_000) as u64;
        let len: usize = scene.random.pick(&[0, 1, 31, 32, 33, 127, 128]);
        let mut topic = vec![b'a'; len];
        let place = scene.random.pick(&[0, 30, 31, 32, len.saturating_sub(1), 128]);
        if let Some(byte) = topic.get_mut(place) {
            *byte = b'b';
        }
        let kind = scene.random.pick(&[CONNECT, PUBLISH, PUBLISH, PUBLISH, PUBLISH, SUBSCRIBE, UNSUBSCRIBE]);
        let size = scene.size();
        scene.message(kind, now, &topic, size, b"");
    }
}

/// Two topics of equal hashes, with one rule for both or one for each.
fn equal_hashes(scene: &mut Scene) {
    let pair = scene.pairs.pick(&mut scene.random);
    let rules = if scene.random.one_in(2) {
        vec![allow(&pair[0], 1), allow(&pair[1], 3), allow(b"#", 0)]
    } else {
        vec![allow(b"+", scene.random.pick(&[1, 2, 5]))]
    };
    scene.opening(0, &rules);
    let near = reblocked(&pair[0]);
    let topics = [&pair[0], &pair[1], &near];
    let mut now = 0;
    for turn in 0..150 {
        let topic = if turn < 2 { topics[turn] } else { scene.random.pick(&topics) };
        let (kind, size) = (scene.random.pick(&[PUBLISH, PUBLISH, PUBLISH, CONNECT]), scene.size());
        scene.message(kind, now, topic, size, b"");
        now += scene.random.below(400_000) as u64;
    }
}

/// Names with wildcards, dollar signs, zero bytes and empty levels, in every packet type.
fn signs(scene: &mut Scene) {
    let patterns: [&[u8]; 9] = [b"#", b"+", b"+/#", b"$SYS/#", b"$SYS/+", b"$share/#", b"/+", b"a/#", b"+/a"];
    let topics: [&[u8]; 20] = [
        b"",
        b"a",
        b"/",
        b"//",
        b"a/",
        b"/a",
        b"a/a",
        b"#",
        b"+",
        b"+/#",
        b"+/+",
        b"a/#",
        b"+a",
        b"$",
        b"$SYS",
        b"$SYS/a",
        b"$SYS/+",
        b"$share/g/#",
        b"a\0b",
        b"\0",
    ];
    let count = scene.random.below(5);
    let rules: Vec<Rule> = (0..count)
        .map(|_| {
            let pattern = scene.random.pick(&patterns);
            Rule { block: scene.random.one_in(3), qos: scene.random.pick(&POLICIES), ..allow(pattern, 2) }
        })
        .collect();
    scene.opening(2, &rules);
    for turn in 0..150 {
        let kind = if scene.random.one_in(2) { SUBSCRIBE } else { 1 + (turn % 15) as u8 };
        let (topic, size) = (scene.random.pick(&topics), scene.size());
        scene.message(kind, turn * 100_000, topic, size, b"");
    }
}

/// Few rules, so that one that a matcher does not take shows, and names that begin or end in every way.
fn apart(scene: &mut Scene) {
    let patterns: [&[u8]; 12] =
        [b"#", b"+", b"+/#", b"+/+", b"+/+/#", b"+/a", b"a/+", b"/+", b"/#", b"$SYS/+", b"$SYS/#", b"$SYS/+/+"];
    let rules: Vec<Rule> = (0..1 + scene.random.below(4))
        .map(|_| {
            let (pattern, rate) = (scene.random.pick(&patterns), scene.random.pick(&[0, 1, 2]));
            Rule { block: scene.random.one_in(2), qos: scene.random.pick(&POLICIES), ..allow(pattern, rate) }
        })
        .collect();
    scene.opening(2, &rules);
    for turn in 0..60 {
        let first = scene.random.pick(&["$SYS", "$SYS", "$", "$+", "a", "a", "+", "a$", ""]);
        let last = scene.random.pick(&["", "/", "/a", "/a", "//", "/$a", "/+", "/a/", "/a/b", "/#", "/\0"]);
        let kind = scene.random.pick(&[PUBLISH, SUBSCRIBE, UNSUBSCRIBE]);
        let (size, payload) = (scene.size(), scene.payload());
        scene.message(kind, turn * 10_000, format!("{first}{last}").as_bytes(), size, &payload);
    }
}

fn policies(scene: &mut Scene) {
    let rules: Vec<Rule> = (0..7)
        .map(|i| Rule { block: scene.random.one_in(8), qos: POLICIES[i], ..allow(format!("p{i}/+").as_bytes(), 1) })
        .collect();
    scene.opening(0, &rules);
    for turn in 0..150 {
        let topic = format!("p{}/x", scene.random.below(8));
        let (kind, size) = (scene.random.pick(&[PUBLISH, SUBSCRIBE, UNSUBSCRIBE]), scene.size());
        scene.message(kind, turn * 300_000, topic.as_bytes(), size, b"");
    }
}

fn blocks(scene: &mut Scene) {
    let rules = [Rule { block: true, ..allow(b"a/#", 5) }, allow(b"b/#", 0)];
    scene.opening(2, &rules);
    for turn in 0..150 {
        let topic: &[u8] = scene.random.pick(&[&b"a/1"[..], b"b/1", b"c"]);
        let kind = scene.random.pick(&[PUBLISH, PUBLISH, SUBSCRIBE, UNSUBSCRIBE]);
        let (size, payload) = (scene.size(), scene.payload());
        scene.message(kind, turn, topic, size, &payload);
    }
}

/// A mean at its ceiling, a spent bucket and a policy that is mostly broken: with a bad verdict, four alerts.
fn many_alerts(scene: &mut Scene) {
    let rule = Rule { qos: "only2", ..allow(b"#", 1) };
    scene.opening(0, &[rule]);
    for turn in 0..150 {
        let (topic, payload) = (scene.random.pick(&[b"a", b"b"]), scene.payload());
        let size = if turn < 20 { 65_535 } else { scene.random.pick(&[1023, 1024, 1025, 65_535]) };
        scene.message(PUBLISH, turn * 100_000, topic, size, &payload);
    }
}

/// Full, short and empty tables of rules; some patterns come twice, and now and then one is refused.
fn rule_tables(scene: &mut Scene) {
    let count = scene.random.pick(&[0, 1, 5, 31, 32, 32, 32]);
    let pool: [&[u8]; 6] = [b"a/#", b"a/+", b"+/b", b"a/b", b"+/+/+", b"#"];
    let refused = scene.random.one_in(4);
    let mut rules = Vec::new();
    while rules.len() < count {
        let len = scene.random.pick(&[1, 2, 3, 5, 8, 13, 31, 32, 33, 63, 64]);
        let mut chosen = pattern(&mut scene.random, len);
        if scene.random.one_in(3) {
            chosen = scene.random.pick(&pool[..]).to_vec();
        }
        if refused && rules.len() == count / 2 {
            let (len, way) = (scene.random.pick(&[0, 7, 65, 128]), scene.random.below(5));
            let broken = scene.random.one_in(2);
            chosen = if broken { among(scene.random.pick(&BROKEN), way) } else { pattern(&mut scene.random, len) };
        } else if refusal(&chosen) != 0 {
            continue;
        }
        let (block, qos) = (scene.random.one_in(4), scene.random.pick(&POLICIES));
        rules.push(Rule { pattern: chosen, block, qos, rate: scene.random.pick(&[0, 1, 2, 65_535]) });
    }
    scene.opening(2, &rules);
    for turn in 0..120 {
        let wanted = if rules.is_empty() { b"a/b" } else { &rules[scene.random.below(count)].pattern[..] };
        let len = scene.random.pick(&[1, 3, 5, wanted.len(), wanted.len() + 1, 64, 128]).min(128);
        let name = topic(&mut scene.random, wanted, len);
        let kind = scene.random.pick(&[PUBLISH, PUBLISH, PUBLISH, SUBSCRIBE, UNSUBSCRIBE]);
        let size = scene.size();
        scene.message(kind, turn * 200_000, &name, size, b"");
    }
}

fn mixture(scene: &mut Scene) {
    let rules = [
        Rule { qos: scene.random.pick(&POLICIES), ..allow(b"m/#", 2) },
        Rule { block: true, ..allow(b"admin/#", 0) },
        Rule { qos: scene.random.pick(&POLICIES), ..allow(b"+/+", 0) },
        allow(b"$SYS/#", 1),
    ];
    let held = scene.random.below(5);
    scene.opening(2, &rules[..held]);
    let mut now = scene.random.next() >> scene.random.below(64);
    for _ in 0..200 {
        let step = scene.random.pick(&[0, 1, 1000, 100_000, 1_000_000, 30_000_000, 300_000_000]);
        now = if scene.random.one_in(10) { now.saturating_sub(step) } else { now.saturating_add(step) };
        let root = scene.random.pick(&["m", "admin", "x", "$SYS", "+", "#", ""]);
        let topic = format!("{root}/{}", scene.random.below(20));
        let kind = if scene.random.one_in(4) { 1 + scene.random.below(15) as u8 } else { PUBLISH };
        let size = scene.size();
        let payload = if scene.random.one_in(8) { scene.payload() } else { vec![] };
        scene.message(kind, now, topic.as_bytes(), size, &payload);
    }
}

/// A whole trace of exactly the longest length or a little less, or one that is longer.
fn longest(scene: &mut Scene) {
    let goal = LONGEST - scene.random.below(3);
    scene.opening(2, &[allow(b"#", 1)]);
    while goal - scene.text.len() > 600 {
        let topic = format!("{}", scene.random.below(40));
        let size = scene.size();
        scene.message(PUBLISH, scene.text.len() as u64 * 20_000, topic.as_bytes(), size, b"");
    }
    scene.fill(goal);
    if scene.random.one_in(3) {
        let more = scene.random.pick(&[1, 2, 100, 1_000_000]) + LONGEST - goal;
        scene.text.extend(vec![b'\n'; more]);
    }
}

/// A whole trace of exactly the longest length, as a site would see it: mounts, cameras and a dome under eight rules, most
/// messages within their rates; now and then a CONNECT, a SUBSCRIBE, a topic that is blocked or that no rule knows.
fn night(scene: &mut Scene) {
    let rules = [
        allow(b"site/+/mount/ra", 2),
        allow(b"site/+/mount/dec", 2),
        Rule { qos: "min1", ..allow(b"site/+/mount/slew", 1) },
        allow(b"site/+/camera/#", 5),
        Rule { qos: "only2", ..allow(b"site/dome/shutter", 1) },
        allow(b"site/dome/+", 0),
        Rule { block: true, ..allow(b"site/+/admin/#", 0) },
        allow(b"$SYS/#", 1),
    ];
    scene.opening(0, &rules);
    let mut now = 1_000_000;
    while LONGEST - scene.text.len() > 600 {
        now += scene.random.below(200_000) as u64;
        let pier = scene.random.pick(&["north", "south", "east"]);
        let (kind, topic) = match scene.random.below(32) {
            0 => (CONNECT, format!("mount-{pier}")),
            1 => (SUBSCRIBE, format!("site/{pier}/#")),
            2 => (PUBLISH, format!("site/{pier}/admin/reset")),
            3 => (PUBLISH, format!("guest/{pier}")),
            4..=6 => (PUBLISH, scene.random.pick(&["site/dome/shutter", "site/dome/azimuth", "$SYS/uptime"]).into()),
            7..=9 => (PUBLISH, format!("site/{pier}/camera/{}", scene.random.below(4))),
            10 => (PUBLISH, format!("site/{pier}/mount/slew")),
            _ => (PUBLISH, format!("site/{pier}/mount/{}", scene.random.pick(&["ra", "dec"]))),
        };
        let payload =
            if kind == PUBLISH { format!("{{\"angle\":{}}}", scene.random.below(1_296_000)) } else { "".into() };
        scene.message(kind, now, topic.as_bytes(), payload.len() as u16, payload.as_bytes());
    }
    scene.fill(LONGEST);
}

fn small(scene: &mut Scene) {
    let count = scene.random.below(3);
    let rules: Vec<Rule> = (0..count).map(|_| allow(scene.random.pick(&[&b"#"[..], b"a/+", b"b"]), 1)).collect();
    scene.opening(2, &rules);
    for turn in 0..scene.random.below(4) as u64 {
        let payload = scene.payload();
        scene.message(PUBLISH, turn * 500_000, b"a/b", 1, &payload);
    }
}

/// Steps around the largest that the validator takes forwards and backwards.
fn real_clock(scene: &mut Scene) {
    scene.opening(0, &[allow(b"#", 1)]);
    let mut times = vec![scene.random.pick(&[0, 5_000_000, 1 << 40, u64::MAX - 10_000_000_000])];
    for _ in 0..150 {
        let from = times[times.len() - 1 - scene.random.below(times.len().min(3))];
        let near = scene.random.below(4) as u64;
        let now = match scene.random.below(6) {
            0 => from.saturating_add(3_599_999_998 + near),
            1 => from.saturating_sub(9_999_998 + near),
            2 => from.saturating_sub(near),
            _ => from.saturating_add(400_000 * near),
        };
        times.push(now);
        let kind = scene.random.pick(&[CONNECT, PUBLISH, PUBLISH]);
        let topic = format!("{}", scene.random.below(3));
        let size = scene.size();
        scene.message(kind, now, topic.as_bytes(), size, b"");
    }
}
