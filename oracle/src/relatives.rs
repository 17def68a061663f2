//! Random pairs of patterns that `add_rule` takes, of which many cover each other: mostly one is made from the other, a
//! level or two changed.

use crate::tally::Random;
use trace::rules::refusal;

/// Levels: the empty one, the letters that are tried and others, with and without a dollar sign, and not of ASCII alone.
const LEVELS: [&str; 14] =
    ["", "", "a", "a", "b", "b", "c", "ab", "a$", "$", "$a", "$SYS", "\u{e9}", "\u{feff}\u{1f52d}"];

/// The longest pattern.
const LONGEST: usize = 64;

type Levels = Vec<Vec<u8>>;

/// Two patterns, the second mostly made from the first.
pub fn pair(random: &mut Random) -> [Vec<u8>; 2] {
    loop {
        let first = levels(random);
        let mut second = if random.one_in(10) { levels(random) } else { first.clone() };
        for _ in 0..1 + random.below(3) {
            change(random, &mut second);
        }
        let both = [first, second].map(|levels| levels.join(&b'/'));
        if both.iter().all(|pattern| refusal(pattern) == 0) {
            return both;
        }
    }
}

/// The levels of a pattern: mostly few, sometimes many, or filled up to the longest or nearly.
fn levels(random: &mut Random) -> Levels {
    let count = if random.one_in(8) { 1 + random.below(30) } else { 1 + random.below(5) };
    let mut levels: Levels = (0..count).map(|_| level(random)).collect();
    for _ in 0..random.below(4) {
        let at = random.below(count);
        levels[at] = b"+".to_vec();
    }
    if random.one_in(3) {
        levels.push(b"#".to_vec());
    }
    let used = levels.join(&b'/').len();
    let wild = |level: &[u8]| matches!(level, b"+" | b"#");
    let plain = levels.iter_mut().find(|level| !wild(level));
    if let (true, Some(plain)) = (random.one_in(4) && used < LONGEST, plain) {
        plain.extend(vec![random.pick(b"ab"); LONGEST - used - random.below(2)]);
    }
    levels
}

fn level(random: &mut Random) -> Vec<u8> {
    random.pick(&LEVELS).as_bytes().to_vec()
}

/// A level replaced by `+`, a tail by `#`, a level changed, added or dropped, a level more at the end, a dollar sign in front.
fn change(random: &mut Random, levels: &mut Levels) {
    let at = random.below(levels.len());
    match random.below(7) {
        0 => levels[at] = b"+".to_vec(),
        1 => {
            levels.truncate(at);
            levels.push(b"#".to_vec());
        }
        2 => levels[at] = level(random),
        3 => levels.insert(at, level(random)),
        4 if levels.len() > 1 => drop(levels.remove(at)),
        5 => levels[0].insert(0, b'$'),
        _ => levels.push(random.pick(&["", "a", "+", "#"]).into()),
    }
}
