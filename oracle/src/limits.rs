//! Random traces that end where the limit stands in some way of its own: names that are hard to show, and full or nearly
//! full tables at the edges of time. As the makers of scenes.rs, each names what it must have met.

use crate::make::{BROKEN, EDGES};
use crate::scenes::{CONNECT, Maker, PUBLISH, SUBSCRIBE, Scene, allow};
use trace::LONGEST;

pub const MAKERS: &[Maker] = &[
    (
        "names that are hard to show",
        names,
        &["shown as it is", "shown as it is beyond ASCII", "dots for a control character", "dots for what is no UTF-8"],
    ),
    (
        "tables that are full or nearly, at the edges of time",
        tables,
        &[
            "some places taken",
            "all places taken",
            "places of one time",
            "a new topic passes at once",
            "a new topic passes by now",
            "a new topic passes later",
            "a new topic never passes",
            "held, a token left",
            "held, open by now",
            "held, open later",
            "held, never open",
            "held, a part of a token counts",
            "evicted, open by now",
            "evicted, open later",
            "evicted, never open",
        ],
    ),
];

/// Traces of the longest length, or just below it, with as many topics as have room: short ones, the longest, and short ones
/// whose times have as many digits as there are. Under one rate, or under the highest, which has the longest numbers.
pub fn crowds() -> Vec<Vec<u8>> {
    let ways = [(2, 0), (2, u64::MAX), (128, 0), (3, u64::MAX - 400_000_000)];
    let texts = ways.into_iter().flat_map(|way| [(way, 1), (way, 65_535)]);
    texts
        .map(|((bytes, at), rate)| {
            let mut text = format!("default=allow\nrules=1\npattern=23\naction=allow\nqos=any\nrate={rate}\n");
            for topic in 0.. {
                // Two digits of base 200 from byte 48 on, which none of the limiter's signs has; the rest is one letter.
                let (high, low) = (48 + topic / 200, 48 + topic % 200);
                let name = format!("{high:02x}{low:02x}{}", "61".repeat(bytes - 2));
                let more = format!("at={at}\nclock=ok\ntype=3\nqos=0\ntopic={name}\nsize=0\npayload=\n");
                if text.len() + more.len() > LONGEST {
                    break;
                }
                text += &more;
            }
            text.into_bytes()
        })
        .collect()
}

/// Characters around those that a person cannot see: U+0000 to U+001F and U+007F to U+009F.
const NEAR_CONTROLS: [&str; 10] = ["\t", "\n", "\u{1f}", " ", "~", "\u{7f}", "\u{80}", "\u{9f}", "\u{a0}", "caf\u{e9}"];

/// Names with such a string at their beginning, end or middle, or two of them; a zero byte is among them too, which the
/// limiter never sees. Some come first in a message of another type.
fn names(scene: &mut Scene) {
    let rate = scene.random.pick(&[1, 2, 3]);
    scene.opening(0, &[allow(b"#", rate)]);
    let mut names = Vec::new();
    for _ in 0..4 + scene.random.below(32) {
        let mut strings = [(); 2].map(|()| match scene.random.below(4) {
            0 => scene.random.pick(&BROKEN).to_vec(),
            1 => scene.random.pick(&EDGES).into(),
            2 => scene.random.pick(&NEAR_CONTROLS).into(),
            _ => vec![scene.random.next() as u8],
        });
        if scene.random.one_in(2) {
            strings[1].clear();
        }
        let name = [&b"a"[..scene.random.below(2)], &strings[0], b"b", &strings[1]].concat();
        names.push(if scene.random.one_in(6) { b"plain/name".to_vec() } else { name });
    }
    let mut now = 0;
    for turn in 0..90 {
        now += scene.random.below(100_000) as u64;
        let name = names[scene.random.below(names.len())].clone();
        let kind = if turn < 20 { scene.random.pick(&[CONNECT, PUBLISH, SUBSCRIBE]) } else { PUBLISH };
        scene.message(kind, now, &name, 0, b"");
    }
}

/// As many topics as there are places, or some more or fewer, at one time or one after another, from any time on up to
/// the end of time. Then some come again, around the time of a token or of an end of a bucket, or the clock goes back. The
/// last message is any.
fn tables(scene: &mut Scene) {
    let rates = [(); 2].map(|()| scene.random.pick(&[1, 2, 3, 7, 30, 65_535]));
    scene.opening(0, &[allow(b"a/+", rates[0]), allow(b"#", rates[1])]);
    let known = scene.random.pick(&[3, 31, 32, 33, 34, 40]);
    let topics: Vec<String> = (0..known).map(|i| format!("{}/{i}", ["a", "b"][i % 2])).collect();
    let last = u64::MAX;
    let starts =
        [0, 1, 1_000_000, 1 << 40, last - 600_000_000, last - 300_000_001, last - 300_000_000, last - 1_000_000];
    let mut now = scene.random.pick(&starts);
    let step = scene.random.pick(&[0, 0, 1, 1000, 333_333]);
    for topic in &topics {
        scene.publish(now, topic.as_bytes());
        now = now.saturating_add(step);
    }
    let first = now;
    for _ in 0..scene.random.below(40) {
        let token = 1_000_000 / u64::from(scene.random.pick(&rates));
        let near = scene.random.below(3) as u64;
        now = match scene.random.below(12) {
            0 => first.saturating_add(299_999_999 + near),
            1 => now.saturating_sub(scene.random.pick(&[1, token, 300_000_001])),
            2..5 => now.saturating_add((token + near).saturating_sub(1)),
            5..8 => now.saturating_add(token / 3),
            _ => now,
        };
        let topic = &topics[scene.random.below(known)];
        scene.publish(now, topic.as_bytes());
    }
    let near = scene.random.below(3) as u64;
    let end = [now, now.saturating_sub(near), now.saturating_add(400_000), first.saturating_add(299_999_999 + near)];
    let (kind, at) = (scene.random.pick(&[CONNECT, SUBSCRIBE, PUBLISH]), scene.random.pick(&end));
    scene.message(kind, at, b"a/0", 0, b"");
}
