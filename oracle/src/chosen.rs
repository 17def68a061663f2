//! The traces whose answers are recorded: small ones, made by hand around document 01's rules, one subject each, and
//! a few of the random makers' with the first seed that does. Each names what it must meet on its way through the
//! original, whose buckets are those of request C-17; together they must meet all of `met::all`. No seed is fresh: a
//! second run makes the same bytes.

use crate::make::LIKE_NOBODY;
use crate::met::Met;
use crate::pairs::{Pair, Pairs};
use crate::scenes::{self, MAKERS};
use std::fmt::Write;
use vs_mqtt_monitor::opened::djb2_hash;

const CONNECT: u8 = 1;
const PUBLISH: u8 = 3;
const SUBSCRIBE: u8 = 8;
const UNSUBSCRIBE: u8 = 10;

/// A trace, how it is asked and what it must meet.
pub struct Chosen {
    pub name: String,
    pub form: Form,
    pub must: Vec<&'static str>,
}

/// How a trace is asked: with room enough, with so much room, or as a beginning and a part that comes again and again
/// up to a length.
pub enum Form {
    Text(Vec<u8>),
    Room(usize, Vec<u8>),
    Long(usize, Vec<u8>, Vec<u8>),
}

/// All of them.
pub fn all() -> Vec<Chosen> {
    let mut list = Vec::new();
    limits(&mut list);
    evictions(&mut list);
    connects(&mut list);
    trackers(&mut list);
    topics_and_rules(&mut list);
    refused(&mut list);
    rooms(&mut list);
    let pairs = Pairs::search();
    equal_hashes(&mut list, &pairs);
    by_makers(&mut list, &pairs);
    list
}

/// A trace in the making.
#[derive(Clone)]
struct Script(String);

fn hex(bytes: &[u8]) -> String {
    bytes.iter().map(|byte| format!("{byte:02x}")).collect()
}

/// An opening; a rule is `pattern action qos rate`.
fn opening(default: &str, rules: &[&str]) -> Script {
    let mut text = format!("default={default}\nrules={}\n", rules.len());
    for rule in rules {
        let [pattern, action, qos, rate] = rule.split(' ').collect::<Vec<_>>()[..] else { panic!("no rule: {rule}") };
        write!(text, "pattern={}\naction={action}\nqos={qos}\nrate={rate}\n", hex(pattern.as_bytes())).unwrap();
    }
    Script(text)
}

impl Script {
    fn message(mut self, kind: u8, at: u64, clock: &str, qos: u8, topic: &[u8], size: u16, payload: &[u8]) -> Script {
        let (topic, payload) = (hex(topic), hex(payload));
        write!(
            self.0,
            "at={at}\nclock={clock}\ntype={kind}\nqos={qos}\ntopic={topic}\nsize={size}\npayload={payload}\n"
        )
        .unwrap();
        self
    }

    /// A good message without payload, of a size.
    fn sized(self, kind: u8, at: u64, topic: &[u8], size: u16) -> Script {
        self.message(kind, at, "ok", 0, topic, size, b"")
    }

    /// The same at each of some times, of size 0.
    fn at(self, kind: u8, times: &[u64], topic: &[u8]) -> Script {
        times.iter().fold(self, |script, &at| script.sized(kind, at, topic, 0))
    }

    /// A message of size 0 for each of some topics, with `step` between them.
    fn each<T: AsRef<[u8]>>(self, kind: u8, from: u64, step: u64, topics: impl IntoIterator<Item = T>) -> Script {
        let timed = topics.into_iter().zip(0..);
        timed.fold(self, |script, (topic, i)| script.sized(kind, from + i * step, topic.as_ref(), 0))
    }

    /// Publishes of each of some sizes, at one time.
    fn sizes(self, at: u64, topic: &[u8], sizes: &[u16]) -> Script {
        sizes.iter().fold(self, |script, &size| script.sized(PUBLISH, at, topic, size))
    }

    fn end(self, list: &mut Vec<Chosen>, name: &str, must: &[&'static str]) {
        text(list, name, self.0.as_bytes(), must);
    }
}

fn text(list: &mut Vec<Chosen>, name: &str, text: &[u8], must: &[&'static str]) {
    list.push(Chosen { name: name.into(), form: Form::Text(text.to_vec()), must: must.to_vec() });
}

/// The names of `count` topics or clients.
fn names(from: usize, count: usize) -> impl Iterator<Item = String> {
    (from..from + count).map(|i| format!("m/{i}"))
}

fn limits(list: &mut Vec<Chosen>) {
    let rate = |rate: u32| opening("allow", &[&format!("m/+ allow any {rate}")]);
    let p9 = [0, 0, 0, 500_000, 999_999, 1_000_000];
    rate(2).at(PUBLISH, &p9, b"m/a").end(list, "rate-2-of-P9", &["kind 5"]);
    // What is less than a token is not lost by a message that is denied.
    let edges = [0, 999_999, 1_000_000, 1_500_000, 1_999_999, 2_000_000, 9_000_000, 9_000_000];
    rate(1).at(PUBLISH, &edges, b"m/a").end(list, "rate-1-around-each-token", &["kind 5"]);
    let thirds = [0, 0, 0, 333_333, 333_334, 666_667, 666_668, 1_000_002, 5_000_000, 5_000_000, 5_000_000, 5_000_000];
    rate(3).at(PUBLISH, &thirds, b"m/a").end(list, "rate-3-keeps-what-a-third-leaves", &["kind 5", "remainder kept"]);
    // Request C-17's guider: 0.8 tokens each time, four messages of five.
    let guider = [0, 0, 400_000, 800_000, 1_200_000, 1_600_000, 2_000_000, 2_400_000];
    rate(2).at(PUBLISH, &guider, b"m/a").end(list, "the-guider-of-C-17", &["kind 5", "remainder kept"]);
    let full = [0, 1_999_999, 2_000_000];
    rate(1).at(PUBLISH, &full, b"m/a").end(list, "a-full-bucket-drops-the-rest", &["kind 5", "remainder dropped"]);
    let spent = [5_000_000, 4_000_000, 5_000_000, 5_000_000, 5_333_333, 5_333_334];
    rate(3).at(PUBLISH, &spent, b"m/a").end(
        list,
        "a-token-is-spent-when-the-clock-goes-back",
        &["kind 5", "clock back", "token spent when the clock went back"],
    );
    let back = [5_000_000, 5_000_000, 4_000_000, 5_999_999, 0, 6_000_000, 6_500_000, 7_000_000];
    rate(1).at(PUBLISH, &back, b"m/a").end(list, "limiter-when-the-clock-goes-back", &["kind 5", "clock back"]);
    let far = [u64::MAX - 1, u64::MAX, u64::MAX, 0, 1_000_000, u64::MAX];
    rate(2).at(PUBLISH, &far, b"m/a").end(list, "limiter-at-the-largest-time", &["kind 5", "clock back"]);
    // Neither a Subscribe nor another topic spends the token; a rate of 0 has no limit.
    opening("allow", &["m/a allow any 1", "m/+ allow any 0"])
        .at(SUBSCRIBE, &[0, 0], b"m/a")
        .at(UNSUBSCRIBE, &[0, 0], b"m/a")
        .at(PUBLISH, &[0, 0, 0], b"m/b")
        .at(PUBLISH, &[0, 0, 0], b"other")
        .at(PUBLISH, &[0, 0], b"m/a")
        .end(list, "who-reaches-the-limiter", &["kind 5"]);
    // Two topics of 33 bytes that share the first 32, and two of 32 that do not.
    let long = |last: &str| format!("m/{}{last}", "x".repeat(29));
    rate(1)
        .each(
            PUBLISH,
            0,
            0,
            [long("ya"), long("yb"), long("ya"), long("yb"), long("a"), long("b"), long("a"), long("b")],
        )
        .end(list, "identities-around-32-bytes", &["kind 5"]);
}

fn evictions(list: &mut Vec<Chosen>) {
    let full = |rate: u32, step: u64| {
        opening("allow", &[&format!("m/+ allow any {rate}")]).each(PUBLISH, 0, step, names(0, 32))
    };
    // The oldest is replaced, with no token; it then comes back and replaces the next.
    full(5, 1000)
        .each(PUBLISH, 40_000, 1, ["m/32", "m/32", "m/0", "m/1"])
        .at(PUBLISH, &[240_000, 240_001], b"m/32")
        .end(list, "the-oldest-of-32-buckets-is-replaced", &["kind 5", "kind 6", "bucket replaced"]);
    full(1, 0).each(PUBLISH, 0, 0, ["m/32", "m/0", "m/31", "m/1"]).end(
        list,
        "buckets-of-one-time-the-first-is-replaced",
        &["kind 6", "bucket replaced"],
    );
    full(1, 0).each(PUBLISH, 300_000_000, 0, ["m/32", "m/32"]).end(
        list,
        "idle-for-300-s-is-not-expired",
        &["kind 6", "bucket replaced"],
    );
    full(1, 0).each(PUBLISH, 300_000_001, 0, ["m/32", "m/32", "m/1", "m/0"]).end(
        list,
        "idle-for-1-us-more-is-expired",
        &["kind 5", "bucket expired"],
    );
    // A denied message moves the time: m/0 is idle since its second one, replaced after 300 s and expired 1 us later.
    let denied = || {
        let rate = opening("allow", &["m/+ allow any 1"]);
        rate.at(PUBLISH, &[0, 999_999], b"m/0").each(PUBLISH, 1_000_000, 0, names(1, 31))
    };
    denied().at(PUBLISH, &[300_999_999], b"m/32").end(
        list,
        "a-denied-message-keeps-a-bucket",
        &["kind 6", "bucket replaced", "time moved by a denied message"],
    );
    denied().at(PUBLISH, &[301_000_000], b"m/32").end(
        list,
        "a-denied-message-keeps-it-for-300-s",
        &["kind 5", "bucket expired"],
    );
    full(1, 10_000_000).each(PUBLISH, 400_000_000, 0, names(32, 12)).end(
        list,
        "expired-first-then-replaced",
        &["kind 6", "bucket expired", "bucket replaced"],
    );
    full(1, 1_000_000).each(PUBLISH, 500_000, 0, ["m/32", "m/33"]).end(
        list,
        "a-full-table-when-the-clock-goes-back",
        &["kind 6", "bucket replaced", "clock back"],
    );
    // The largest rate runs dry in a place that was replaced: 15 us are less than one token, 16 are more, and so are 15
    // with what those left.
    full(65_535, 0).at(PUBLISH, &[0, 15, 16, 31, 46, 47, 47], b"m/32").end(
        list,
        "rate-65535-by-tokens",
        &["kind 5", "kind 6", "bucket replaced"],
    );
}

fn connects(list: &mut Vec<Chosen>) {
    let open = || opening("allow", &[]);
    let four = [0, 10_000_000, 20_000_000, 30_000_000];
    open().at(CONNECT, &four, b"c").at(CONNECT, &[60_000_000], b"c").end(list, "fifth-connect-at-60-s", &["kind 1"]);
    open().at(CONNECT, &four, b"c").at(CONNECT, &[60_000_001], b"c").end(list, "fifth-connect-1-us-later", &["end 0"]);
    open().at(CONNECT, &[7; 20], b"c").at(CONNECT, &[60_000_007, 60_000_008], b"c").end(
        list,
        "twenty-connects-at-once",
        &["kind 1"],
    );
    let back = [100_000_000, 90_000_000, 80_000_000, 70_000_000, 10, 200_000_000, 200_000_000];
    open().at(CONNECT, &back, b"c").end(list, "later-stamps-count", &["kind 1", "clock back"]);
    open().at(CONNECT, &[0, 1, 2], b"").at(CONNECT, &[3, 4, 5], LIKE_NOBODY).end(
        list,
        "a-client-with-the-hashes-of-none",
        &["kind 1"],
    );
    open()
        .each(CONNECT, 0, 1, names(0, 17))
        .each(CONNECT, 20, 0, ["m/0", "m/2", "m/16", "m/16", "m/16", "m/16", "m/16"])
        .end(list, "seventeen-clients", &["kind 1", "client replaced"]);
    open().at(CONNECT, &[5, 5, 5, 5], b"m/0").each(CONNECT, 5, 0, names(1, 16)).at(CONNECT, &[5, 5], b"m/0").end(
        list,
        "clients-of-one-time-the-first-is-replaced",
        &["client replaced"],
    );
    let storm = (0..6).fold(open(), |script, i| script.message(CONNECT, i, "bad", 2, b"c", 9, b"ab"));
    storm.end(list, "a-storm-with-a-bad-clock", &["kind 1", "kind 8"]);
    let others = (1..=15).filter(|kind| ![CONNECT, PUBLISH, SUBSCRIBE, UNSUBSCRIBE].contains(kind));
    let others = others.fold(opening("block", &["# block only2 1"]), |script, kind| {
        script.message(kind, 1, if kind == 14 { "bad" } else { "ok" }, 1, b"+/$\0", 65_535, b"x")
    });
    others.end(list, "types-that-are-only-counted", &["kind 8"]);
}

fn trackers(list: &mut Vec<Chosen>) {
    let open = || opening("allow", &[]);
    open().sizes(0, b"t", &[10, 10, 10, 10, 10, 10, 10, 10, 40, 56]).end(list, "sizes-of-P11-with-40", &["kind 7"]);
    open().sizes(0, b"t", &[10, 10, 10, 10, 10, 10, 10, 10, 41, 55]).end(list, "sizes-of-P11-with-41", &["kind 7"]);
    open().sizes(0, b"t", &[65_535, 1, 1, 1, 1, 1, 1, 1, 65_535, 1024, 1025, 1, 65_535]).end(
        list,
        "sizes-of-P12-and-on",
        &["kind 7"],
    );
    // A size of 0 feeds nothing.
    let small = [1, 0, 1, 0, 1, 1, 1, 1, 1, 0, 1, 4, 5, 1, 1, 1, 1, 1, 1, 1, 1, 1, 1, 1, 1, 65_535];
    open().sizes(0, b"t", &small).end(list, "sizes-0-and-1", &["kind 7"]);
    open()
        .sizes(0, b"t", &[2; 8])
        .message(PUBLISH, 1, "ok", 0, b"t", 200, b"abcdefgh")
        .message(PUBLISH, 2, "ok", 0, b"t", 65_535, &[0xff; 256])
        .message(PUBLISH, 3, "ok", 0, b"t", 65_535, b"")
        .end(list, "a-large-payload-and-its-hash", &["kind 7", "hash in an alert"]);
    // A message that is fed moves the tracker's time, also back: m/5 is replaced, m/0 is not.
    let full = names(1, 15).fold(open().sizes(100, b"m/0", &[9; 8]), |s, name| s.sizes(200, name.as_bytes(), &[9]));
    full.sizes(3, b"m/5", &[9]).sizes(300, b"m/16", &[9]).sizes(301, b"m/0", &[100]).end(
        list,
        "trackers-when-the-clock-goes-back",
        &["kind 7", "tracker replaced", "clock back"],
    );
    let many = (0..17).fold(open(), |script, i| script.sizes(i, format!("m/{i}").as_bytes(), &[9]));
    many.sizes(20, b"m/1", &[9; 7]).sizes(20, b"m/0", &[9; 8]).sizes(21, b"m/1", &[100]).sizes(21, b"m/0", &[100]).end(
        list,
        "seventeen-trackers",
        &["kind 7", "tracker replaced"],
    );
    // Of trackers of one time the first is replaced: m/0, and not m/15.
    let full =
        names(0, 16).fold(open(), |s, name| s.sizes(0, name.as_bytes(), &[9; 8][..if name == "m/15" { 8 } else { 1 }]));
    full.sizes(0, b"m/0", &[9; 7]).sizes(0, b"m/16", &[9]).sizes(0, b"m/15", &[100]).sizes(0, b"m/0", &[100]).end(
        list,
        "trackers-of-one-time-the-first-is-replaced",
        &["kind 7", "tracker replaced"],
    );
    // The sample count stops at 255: if it began again, a large size would be in the warm-up and not be told.
    let head = open().0;
    let part = open().sizes(0, b"t", &[9, 9, 9, 9, 9, 9, 9, 200]).0[head.len()..].to_string();
    list.push(Chosen {
        name: "three-hundred-and-four-samples".into(),
        form: Form::Long(head.len() + 38 * part.len(), head.into(), part.into()),
        must: vec!["kind 7"],
    });
}

fn topics_and_rules(list: &mut Vec<Chosen>) {
    let empty = [PUBLISH, SUBSCRIBE, UNSUBSCRIBE, 4, CONNECT];
    let script = empty.iter().fold(opening("allow", &["# allow any 1"]), |s, &kind| s.at(kind, &[0], b""));
    script.end(list, "empty-topics", &["kind 2"]);
    let signs: [&[u8]; 9] = [b"+", b"#", b"a/+", b"a/#", b"\0", b"a\0b", b"a+b", b"$a", b"/"];
    let mut script = opening("allow", &["# allow any 1"]);
    for kind in [PUBLISH, SUBSCRIBE, UNSUBSCRIBE] {
        script = script.each(kind, 0, 0, signs);
    }
    script.end(list, "wildcards-and-zero-bytes", &["kind 9", "kind 11"]);
    let broad: [&[u8]; 8] = [b"#", b"+", b"+/#", b"+/+", b"/#", b"#/", b"a/#", b"++"];
    opening("block", &["# allow min1 0"]).each(SUBSCRIBE, 0, 0, broad).end(
        list,
        "broad-subscribes",
        &["kind 4", "kind 11"],
    );
    let dollar: [&[u8]; 5] = [b"$SYS/a", b"$SYS", b"$x/a", b"$", b"a/$"];
    opening("allow", &["$SYS/# allow any 0", "$x/# block any 0"])
        .each(SUBSCRIBE, 0, 0, dollar)
        .each(PUBLISH, 0, 0, dollar)
        .end(list, "dollar-names", &["kind 3", "kind 10"]);
    opening("block", &["+/# allow any 0"]).each(SUBSCRIBE, 0, 0, dollar).each(SUBSCRIBE, 0, 0, ["#"]).end(
        list,
        "dollar-names-by-a-broad-rule",
        &["kind 11"],
    );
    opening("block", &[]).each(SUBSCRIBE, 0, 0, dollar).end(list, "dollar-names-by-default", &["kind 3", "kind 10"]);
    opening("block", &["a/# allow any 0", "a/b block any 9", "b/+ block min2 9"])
        .message(PUBLISH, 0, "ok", 0, b"a/b", 1, b"x")
        .message(PUBLISH, 1, "ok", 0, b"b/c", 3, b"abc")
        .message(PUBLISH, 2, "bad", 1, b"c", 0, &[0; 256])
        .message(SUBSCRIBE, 3, "ok", 1, b"c", 65_535, b"\0")
        .message(UNSUBSCRIBE, 4, "ok", 1, b"b/", 2, b"")
        .message(PUBLISH, 5, "ok", 2, b"b/c/d", 2, &(0..=255).collect::<Vec<u8>>())
        .end(list, "blocked-with-their-hashes", &["kind 3", "kind 8", "hash in an alert"]);
    let policies = ["any", "min0", "min1", "min2", "only0", "only1", "only2"];
    let rules: Vec<String> = policies.iter().map(|policy| format!("{policy}/+ allow {policy} 0")).collect();
    let mut script = opening("allow", &rules.iter().map(String::as_str).collect::<Vec<_>>());
    for (i, policy) in policies.iter().chain(&["none"]).enumerate() {
        let kind = [PUBLISH, SUBSCRIBE, UNSUBSCRIBE][i % 3];
        for qos in 0..3 {
            script = script.message(kind, 0, "ok", qos, format!("{policy}/x").as_bytes(), 0, b"");
        }
    }
    script.end(list, "every-policy-at-every-level", &["kind 4"]);
    let mut script = opening("allow", &["a allow only2 1"]).sizes(0, b"a", &[5; 8]);
    for qos in 0..3 {
        script = script.message(PUBLISH, 0, "bad", qos, b"a", 65_535, b"payload");
    }
    script.end(list, "four-alerts-at-once", &["kind 4", "kind 5", "kind 7", "kind 8", "four alerts at once"]);
    opening("allow", &["a block any 0", "b allow any 1", "a allow only1 2", "b block any 0", "a/b allow any 0"])
        .each(PUBLISH, 0, 0, ["a", "a", "a", "b", "a/b"])
        .end(list, "rules-written-again", &["kind 3", "kind 4", "kind 5", "rule overwritten"]);
    let rules: Vec<String> = (0..32).map(|i| format!("r{i}/+ {} any 1", ["allow", "block"][i % 2])).collect();
    opening("block", &rules.iter().map(String::as_str).collect::<Vec<_>>())
        .each(PUBLISH, 0, 0, ["r0/a", "r30/a", "r31/a", "r30/a", "r32/a", "r3"])
        .end(list, "thirty-two-rules", &["kind 3", "kind 5"]);
    // Levels: "sport/#" takes "sport", "+" no empty last level, "+/+" an empty first one.
    opening("block", &["sport/# allow any 0", "x/+ allow any 0", "+/+ allow only2 0", "a/+/c/# allow any 0"])
        .each(PUBLISH, 0, 0, ["sport", "sport/", "sports", "x/", "x/y", "/finance", "a//c", "a/b/c/", "a/b", "A/b/c"])
        .end(list, "levels", &["kind 3", "kind 4"]);
}

/// A whole trace, and one thing wrong with it each time.
fn refused(list: &mut Vec<Chosen>) {
    let message = opening("allow", &["m/+ allow any 1"]).at(PUBLISH, &[1, 2], b"m/a").0;
    let wrong = |list: &mut Vec<Chosen>, name: &str, old: &str, new: &str, must: &'static str| {
        assert!(message.contains(old), "{old}");
        text(list, name, message.replacen(old, new, 1).as_bytes(), &[must]);
    };
    let pattern = |pattern: &[u8]| format!("pattern={}\n", hex(pattern));
    let held = pattern(b"m/+");
    wrong(list, "an-empty-pattern", &held, "pattern=\n", "end 9");
    wrong(list, "a-pattern-of-65-bytes", &held, &pattern(&[b'a'; 65]), "end 9");
    wrong(list, "a-pattern-of-64-bytes", &held, &pattern(&[b'a'; 64]), "end 0");
    wrong(list, "a-pattern-with-four-plus", &held, &pattern(b"+/+/+/+"), "end 9");
    wrong(list, "a-pattern-cut-off-in-a-character", &held, &pattern(b"m/\xc3"), "end 36");
    wrong(list, "a-pattern-with-an-overlong-slash", &held, &pattern(b"m\xc0\xaf+"), "end 36");
    wrong(list, "a-pattern-with-a-surrogate", &held, &pattern(b"m/\xed\xa0\x80"), "end 36");
    wrong(list, "no-UTF-8-and-four-plus", &held, &pattern(b"+/+/+/+/\xff"), "end 36");
    wrong(list, "no-UTF-8-and-a-zero-byte", &held, &pattern(b"m/\0\xff"), "end 9");
    wrong(list, "no-UTF-8-and-65-bytes", &held, &pattern(&[0xff; 65]), "end 9");
    wrong(list, "a-pattern-of-longer-characters", &held, &pattern("m/\u{e4}/\u{1f52d}/+".as_bytes()), "end 0");
    wrong(list, "a-pattern-of-129-bytes", &held, &pattern(&[b'a'; 129]), "end 25");
    wrong(list, "a-lost-line", "clock=ok\n", "", "end 21");
    wrong(list, "a-doubled-line", "rules=1\n", "rules=1\nrules=1\n", "end 21");
    wrong(list, "thirty-three-rules", "rules=1\n", "rules=33\n", "end 22");
    wrong(list, "a-time-of-2-to-the-64", "at=2\n", "at=18446744073709551616\n", "end 22");
    wrong(list, "a-spare-zero", "at=2\n", "at=02\n", "end 22");
    wrong(list, "type-16", "type=3\n", "type=16\n", "end 22");
    wrong(list, "a-bad-word", "clock=ok\n", "clock=OK\n", "end 23");
    wrong(list, "a-blank-behind-a-word", "qos=any\n", "qos=any \n", "end 23");
    text(list, "ends-of-line-with-CR", message.replace('\n', "\r\n").as_bytes(), &["end 23"]);
    wrong(list, "an-odd-count-of-digits", "topic=6d2f61\n", "topic=6d2f6\n", "end 24");
    wrong(list, "hex-in-upper-case", "topic=6d2f61\n", "topic=6D2f61\n", "end 24");
    wrong(list, "a-payload-of-257-bytes", "payload=\n", &format!("payload={}\n", "00".repeat(257)), "end 25");
    text(list, "nothing", b"", &["end 26"]);
    text(list, "no-LF-at-the-end", &message.as_bytes()[..message.len() - 1], &["end 26"]);
    text(list, "a-message-stops-short", message.trim_end_matches("size=0\npayload=\n").as_bytes(), &["end 26"]);
    text(list, "bytes-that-are-no-text", b"default=\xff\0\n", &["end 23"]);
}

/// The longest text and one byte more; rooms that fit or do not.
fn rooms(list: &mut Vec<Chosen>) {
    let head = opening("allow", &[]).0;
    let part = opening("allow", &[]).message(PUBLISH, 1, "ok", 0, b"abc", 0, &[b'p'; 151]).0[head.len()..].to_string();
    assert_eq!((trace::LONGEST - head.len()) % part.len(), 0, "{} and {}", head.len(), part.len());
    for (length, name, must) in
        [(trace::LONGEST, "the-longest-text", "end 0"), (trace::LONGEST + 1, "one-byte-more", "end 27")]
    {
        let form = Form::Long(length, head.clone().into(), part.clone().into());
        list.push(Chosen { name: name.into(), form, must: vec![must] });
    }
    let script = opening("allow", &["m/+ allow any 1"]).at(PUBLISH, &[0, 0], b"m/a").0;
    let mut answer = Vec::new();
    trace::run(script.as_bytes(), &mut answer);
    for (room, name, must) in [
        (answer.len(), "room-enough", "end 0"),
        (answer.len() + 7, "room-to-spare", "end 0"),
        (answer.len() - 1, "room-short-by-one", "end 28"),
        (0, "no-room", "end 28"),
    ] {
        list.push(Chosen { name: name.into(), form: Form::Room(room, script.clone().into()), must: vec![must] });
    }
    let refused = "default=allow\nrules=x\n";
    list.push(Chosen {
        name: "no-room-for-a-refusal".into(),
        form: Form::Room(5, refused.into()),
        must: vec!["end 28"],
    });
}

/// Names that share FNV-1a, and but for the last two djb2: by turns under one token each, or as clients.
fn equal_hashes(list: &mut Vec<Chosen>, pairs: &Pairs) {
    let by_turns = |[a, b]: &Pair| opening("allow", &["# allow any 1"]).each(PUBLISH, 0, 0, [a, b, a, b]);
    let in_byte_32 = pairs.apart.iter().find(|[a, _]| a.len() > 32).expect("a pair that differs in byte 32");
    by_turns(in_byte_32).end(list, "equal-hashes-apart-in-byte-32", &["kind 5"]);
    by_turns(&pairs.by_length[0]).end(list, "equal-hashes-apart-by-length", &["kind 5"]);
    by_turns(&pairs.one[0]).end(list, "equal-hashes-one-identity", &["kind 5"]);
    let told = |pair: &&Pair| djb2_hash(&pair[0]) != djb2_hash(&pair[1]);
    let [a, b] = pairs.by_djb2.iter().find(told).expect("a pair that differs in djb2");
    by_turns(&[a.clone(), b.clone()]).end(list, "topics-apart-by-djb2", &["kind 5"]);
    opening("allow", &[]).at(CONNECT, &[0; 4], a).at(CONNECT, &[0], b).at(CONNECT, &[0], a).end(
        list,
        "clients-apart-by-djb2",
        &["kind 1"],
    );
}

/// The first forty messages of some random makers' traces, by the first seed from 1 on that meets what the maker must.
fn by_makers(list: &mut Vec<Chosen>, pairs: &Pairs) {
    for name in [
        "a clock that goes back",
        "CONNECT storms",
        "topic lengths",
        "equal hashes",
        "wildcards and dollar names in every type",
        "all at once",
    ] {
        let maker = MAKERS.iter().find(|maker| maker.0 == name).expect(name);
        let seeded = |seed| shortened(&scenes::make(maker, seed, pairs), 40);
        let meets = |text: &Vec<u8>| {
            let mut met = Met::default();
            met.expected(text);
            maker.2.iter().all(|what| met.times(what) > 0)
        };
        let found = (1..10_000).map(seeded).find(meets).expect(name);
        text(list, &name.replace(' ', "-"), &found, maker.2);
    }
}

/// The first so many messages of a trace.
fn shortened(text: &[u8], messages: usize) -> Vec<u8> {
    let lines: Vec<&[u8]> = text.split_inclusive(|&byte| byte == b'\n').collect();
    let first = lines.iter().position(|line| line.starts_with(b"at=")).unwrap_or(lines.len());
    lines[..lines.len().min(first + 7 * messages)].concat()
}
