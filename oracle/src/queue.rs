//! queue [--seed N]: runs of packets after a trace (request C-12) through the archive's `hub_queue` against the Rust
//! original, which is fed with the second reader's messages singly (wake.rs, queued.rs): runs with answers that are
//! known, chosen ones in every room, traces that are refused, and random ones. What they met is counted (reached.rs);
//! anything that was never met is a failure.

mod checks;
mod damage;
mod drafts;
mod hub;
mod make;
mod mqtt;
mod queued;
mod reached;
mod runs;
mod tally;
mod wake;

use drafts::{Draft, connect, publish, subscribe, unsubscribe};
use hub::HubQueue;
use queued::Ran;
use runs::{FILTERS, MOST, made};
use tally::{Class, Random};
use wake::{Task, Wake, every_room};

/// Random runs for each seed, and the rooms of each.
const RUNS: usize = 3_000;
const ROOMS: usize = 5;

/// A rule for `m/+`, one message a second; `m/a` has just come.
const RULE: &str = "default=allow\nrules=1\npattern=6d2f2b\naction=allow\nqos=any\nrate=1\n";
const BEFORE: &str = "at=1000000\nclock=ok\ntype=3\nqos=0\ntopic=6d2f61\nsize=0\npayload=\n";

/// A rule for all topics by which a Publish of QoS 1 is out of policy.
const STRICT: &str = "default=allow\nrules=1\npattern=23\naction=allow\nqos=only2\nrate=1\n";

/// The records of two Publishes behind it, of `m/a` and `m/b`; then those of a Subscribe to `#` and `$SYS/a`.
const FIRST: &str = "n=1\nallowed=0\nalerts=1\nid=1\nkind=5\nseverity=2\n\
    hash=0000000000000000000000000000000000000000000000000000000000000000\n";
const SECOND: &str = "n=2\nallowed=1\nalerts=0\n";
const THIRD: &str = "n=3\nallowed=1\nalerts=1\nid=2\nkind=11\nseverity=2\n\
    hash=0000000000000000000000000000000000000000000000000000000000000000\n";
const FOURTH: &str = "n=4\nallowed=0\nalerts=1\nid=3\nkind=10\nseverity=2\n\
    hash=0000000000000000000000000000000000000000000000000000000000000000\n";

fn main() {
    let words: Vec<String> = std::env::args().skip(1).collect();
    let seeds = tally::seeds(&words);
    let mut task = Task::default();
    known_answers(&mut task);
    chosen_runs(&mut task);
    refused_traces(&mut task);
    for seed in seeds {
        random_runs(&mut task, seed);
    }
    task.classes.push(task.reached.class());
    if !tally::report(&task.classes) {
        std::process::exit(1);
    }
}

/// Runs whose answers follow from the request's words alone: the second run must say so too.
fn known_answers(task: &mut Task) {
    let mut class = Class::new("runs with answers that are known");
    let all = format!("{FIRST}{SECOND}{THIRD}{FOURTH}");
    let (one, two) = (FIRST.len(), FIRST.len() + SECOND.len());
    let (three, four) = (two + THIRD.len(), all.len());
    let packets = [publish(0, b"m/a", 0, b""), publish(0, b"m/b", 0, b""), subscribe(7, &[(b"#", 0), (b"$SYS/a", 1)])];
    let packets = packets.map(|draft| draft.bytes());
    let (second, end) = (packets[0].len() + packets[1].len(), packets.concat().len());
    let reserved = [&packets[..2], &[vec![0xf0, 0]], &packets[2..]].concat();
    let cut = [&packets[..2], &[packets[2][..9].to_vec()]].concat();
    let long = [&packets[..2], &[unsubscribe(1, &[b"a", &[b'f'; 129]]).bytes()]].concat();
    // Packets, room; number, place, messages done, and how many bytes of all records.
    let known: [(&[Vec<u8>], usize, (u32, usize, u64, usize)); 17] = [
        (&packets, four + 9, (0, end, 4, four)),
        (&packets, four, (0, end, 4, four)),
        (&packets, four - 1, (28, second, 2, two)),
        (&packets, three, (28, second, 2, two)),
        (&packets, two, (28, second, 2, two)),
        (&packets, two - 1, (28, packets[0].len(), 1, one)),
        (&packets, 1, (28, 0, 0, 0)),
        (&packets, 0, (28, 0, 0, 0)),
        (&packets[..2], two, (0, second, 2, two)),
        (&[], 0, (0, 0, 0, 0)),
        (&reserved, four, (32, second, 2, two)),
        (&reserved, two, (32, second, 2, two)),
        (&reserved, two - 1, (28, packets[0].len(), 1, one)),
        (&reserved[2..], 0, (32, 0, 0, 0)),
        (&cut, four, (31, second, 2, two)),
        (&cut, two, (31, second, 2, two)),
        (&long, two, (33, second, 2, two)),
    ];
    for (packets, room, (number, place, done, length)) in known {
        let run = made(format!("{RULE}{BEFORE}").into_bytes(), (1_500_000, true), packets.to_vec());
        let (answer, records) = wake::expected_of(&run, room);
        // One message and no alert in the trace; each record here has an alert, but the second.
        let total = done.min(1) + done.saturating_sub(2);
        let meant = HubQueue { number, place, done, length, inspected: 1 + done, total };
        assert_eq!((answer, &records[..]), (meant, &all.as_bytes()[..length]), "the second run, in {room} bytes");
        task.compare(&mut class, &run, |_| vec![room]);
    }
    task.classes.push(class);
}

/// Runs that are there for one thing each, in every room.
fn chosen_runs(task: &mut Task) {
    let mut class = Class::new("chosen runs, in every room");
    let none: [&[u8]; 2] = [b"", b""];
    let ping = || Draft::new(0xc0, vec![]);
    let filters = vec![(&b"#"[..], 0); FILTERS];
    let names: Vec<Vec<u8>> = (0..40).map(|topic| format!("m/{topic}").into_bytes()).collect();
    let sizes = [1; 9].into_iter().chain([0, 1, 255, 256, 257, 65_534, 65_535, 65_536, 65_537, 70_000]);
    let runs: Vec<Vec<Draft>> = vec![
        vec![],
        vec![ping()],
        // Each type that is not read.
        [2, 4, 5, 6, 7, 9, 11, 12, 13, 14].map(|kind| Draft::new(kind << 4, vec![])).to_vec(),
        // A storm, others between.
        (0..12).map(|k| if k % 4 == 3 { ping() } else { connect(2, b"c1", none, none) }).collect(),
        // One topic faster than its rate, and more topics than there are buckets.
        (0..4).map(|_| publish(0, b"m/a", 0, b"")).collect(),
        names.iter().map(|name| publish(0, name, 0, b"")).collect(),
        // Sizes from small to far above, and over what a size can say.
        sizes.map(|length| publish(2, b"m/s", 9, &vec![7; length])).collect(),
        // Filters of which each raises an alert, and the ordinal gets a digit more within a packet.
        vec![subscribe(1, &filters), unsubscribe(2, &[b"", b"a", b""]), subscribe(3, &filters), ping()],
        vec![ping(), unsubscribe(2, &vec![&b""[..]; FILTERS]), publish(0, b"", 0, b"")],
        (0..MOST).map(|_| ping()).collect(),
        (0..MOST).map(|_| subscribe(1, &[(b"$SYS/#", 2), (b"+", 1)])).collect(),
        // Names and client ids of the longest that is taken.
        vec![
            publish(0, &[b't'; 128], 0, b"x"),
            connect(2, &[b'c'; 128], none, none),
            subscribe(1, &[(&[b'f'; 128], 0)]),
        ],
    ];
    let traces = [RULE.to_string(), format!("{RULE}{BEFORE}"), STRICT.to_string()];
    // Whole, or with a packet behind it that is refused.
    let long = publish(0, &[b't'; 129], 0, b"").bytes();
    let ends = [None, Some(vec![0x00, 0]), Some(vec![0x30, 5, 0, 1, b'a']), Some(long)];
    for (trace, run) in traces.iter().flat_map(|trace| runs.iter().map(move |run| (trace.as_bytes(), run))) {
        for end in &ends {
            let packets: Vec<Vec<u8>> = run.iter().map(Draft::bytes).chain(end.clone()).collect();
            for time in [(1_500_000, true), (0, false), (u64::MAX, true)] {
                task.compare(&mut class, &made(trace.to_vec(), time, packets.clone()), every_room);
            }
        }
    }
    task.classes.push(class);
}

/// Traces that are refused: nothing of the run is done, whatever its packets are.
fn refused_traces(task: &mut Task) {
    let mut class = Class::new("traces that are refused");
    let whole = format!("{RULE}{BEFORE}{BEFORE}");
    let mut texts: Vec<Vec<u8>> = damage::every(whole.as_bytes());
    texts.push(format!("{RULE}{}", BEFORE.repeat(1_100)).into_bytes());
    for (place, trace) in texts.into_iter().enumerate() {
        let packets = [vec![0xc0, 0], vec![], vec![0xf0, 0], vec![0x30]];
        let packets = vec![packets[place % 4].clone(), vec![0xd0, 0]];
        task.compare(&mut class, &made(trace, (2_000_000, true), packets), |_| vec![0, 30, 60]);
    }
    task.classes.push(class);
}

/// Runs of up to 60 packets, in a few of the rooms that they have.
fn random_runs(task: &mut Task, seed: u64) {
    let mut class = Class::new(format!("random runs, seed {seed}"));
    let random = &mut Random(seed);
    for _ in 0..RUNS {
        let run: Wake = runs::wake(random);
        task.compare(&mut class, &run, |full: &Ran| {
            let every = every_room(full);
            let exact = full.records.len();
            let some = (0..ROOMS - 2).map(|_| every[random.below(every.len())]);
            [exact, exact.saturating_sub(1)].into_iter().chain(some).collect()
        });
    }
    task.classes.push(class);
}
