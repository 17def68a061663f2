//! Settings texts: those of random settings, and what a wrong hand or a bad line makes of one. The damages are of
//! single values, of lines and of bytes, up to three in one text, so that it is seen which of two refusals comes first.

use crate::damage;
use crate::make::{BROKEN, EDGES, LENGTHS, among, pattern};
use crate::reader::{ACTIONS, MATCHINGS, POLICIES, Rule, Settings, text};
use crate::tally::Random;
use trace::LONGEST;
use trace::rules::refusal;

/// The longest pattern that a rule may have.
const PATTERN_MAX: usize = 64;

/// Settings that a hub may have, in either form: numbers at the ends of their ranges, and as many rules as there is
/// room for.
pub fn settings(random: &mut Random) -> Settings {
    let form = random.pick(&[1, 2]);
    let any = [2 + random.below(15), 1_000_000 + random.below(599_000_001)].map(|number| number as u64);
    let mut settings = Settings {
        form,
        default: random.pick(&ACTIONS),
        matching: if form == 1 { "port" } else { random.pick(&MATCHINGS) },
        threshold: random.pick(&[2, 5, 9, 10, 16, any[0]]),
        window: random.pick(&[1_000_000, 9_999_999, 60_000_000, 600_000_000, any[1]]),
        rules: Vec::new(),
    };
    let some = random.below(33);
    for _ in 0..random.pick(&[0, 1, 1, 2, 2, 3, 9, 10, 31, 32, some]) {
        let rule = rule(random, &settings.rules);
        settings.rules.push(rule);
    }
    settings
}

/// A rule that these rules leave room for.
fn rule(random: &mut Random, earlier: &[Rule]) -> Rule {
    let pattern = loop {
        let pattern = some_pattern(random);
        if refusal(&pattern) == 0 && earlier.iter().all(|rule| rule.pattern != pattern) {
            break pattern;
        }
    };
    let rate = random.next() & 0xffff;
    let rate = random.pick(&[0, 1, 9, 10, 65_535, rate]);
    Rule { pattern, action: random.pick(&ACTIONS), qos: random.pick(&POLICIES), rate }
}

/// Mostly one that a rule may have.
fn some_pattern(random: &mut Random) -> Vec<u8> {
    if random.one_in(3) {
        let edge = random.pick(&EDGES);
        return among(edge.as_bytes(), random.below(5));
    }
    let any = 1 + random.below(PATTERN_MAX);
    let length = random.pick(&[2, 3, 5, 32, PATTERN_MAX - 1, PATTERN_MAX, any]);
    pattern(random, length)
}

/// The longest text of a form: each value at its longest.
pub fn longest(form: u32) -> Vec<u8> {
    let rule = |place: usize| Rule {
        pattern: format!("{place:0PATTERN_MAX$}").into_bytes(),
        action: "allow",
        qos: "only2",
        rate: 65_535,
    };
    let rules = (0..32).map(rule).collect();
    text(&Settings { form, default: "block", matching: "standard", threshold: 16, window: 600_000_000, rules })
}

/// A text that is mostly refused: one damage, seldom two or three.
pub fn damaged(random: &mut Random) -> Vec<u8> {
    let mut settings = settings(random);
    if !settings.rules.is_empty() && random.one_in(5) {
        bad_pattern(random, &mut settings);
    }
    let mut text = text(&settings);
    for _ in 0..random.pick(&[1, 1, 1, 1, 2, 3]) {
        // Nothing is left where a text was cut off at its beginning.
        if !text.is_empty() {
            text = spoilt(random, &text);
        }
    }
    text
}

/// A pattern that no rule may have, or that another rule has.
fn bad_pattern(random: &mut Random, settings: &mut Settings) {
    let rules = &mut settings.rules;
    let (place, other) = (random.below(rules.len()), random.below(rules.len()));
    let length = random.pick(&LENGTHS);
    rules[place].pattern = match random.below(8) {
        0 => vec![],
        1 => vec![b'a'; random.pick(&[65, 66, 127, 128, 129])],
        2 => random.pick(&[&b"\0"[..], b"a\0b", b"a\0\xff", b"a/\0"]).to_vec(),
        3 => random.pick(&[&b"+/+/+/+"[..], b"+/+/+/+/#", b"+/+/+/+/\xff"]).to_vec(),
        4 => random.pick(&[&b"a#"[..], b"#/a", b"a+", b"+a/b", b"a/#/b", b"##"]).to_vec(),
        5 => pattern(random, length),
        6 => {
            let string = random.pick(&BROKEN);
            among(string, random.below(5))
        }
        _ => rules[other].pattern.clone(),
    };
}

/// One damage more.
fn spoilt(random: &mut Random, text: &[u8]) -> Vec<u8> {
    match random.below(9) {
        0..3 => revalued(random, text),
        3..5 => relined(random, text),
        5 => reformed(random, text),
        6 => damage::one(random, text),
        7 => ended(random, text),
        _ => cut(random, text),
    }
}

/// A line's place: as often one of the first six, so that all before the rules are among them, as one of all.
fn some_line(random: &mut Random, lines: usize) -> usize {
    let most = if random.one_in(2) { lines.min(6) } else { lines };
    random.below(most)
}

/// The lines of a text, their LF included.
fn lines(text: &[u8]) -> Vec<Vec<u8>> {
    text.split_inclusive(|&byte| byte == b'\n').map(<[u8]>::to_vec).collect()
}

/// Another value in one line: mostly one that this key must not have.
fn revalued(random: &mut Random, text: &[u8]) -> Vec<u8> {
    let mut lines = lines(text);
    let place = some_line(random, lines.len());
    let Some(end) = lines[place].iter().position(|&byte| byte == b'=') else { return relined(random, text) };
    let key = &lines[place][..end];
    let bad: &[&str] = match key {
        b"form" => &["", "0", "01", "02", "3", "11", "12", "22", "1 ", " 2", "1\r", "2\r", "+1", "one", "1", "2"],
        b"match" => &["", "Port", "STANDARD", "port ", "standard\r", "standards", "any", "1", "port", "standard"],
        b"default" | b"action" => &["", "Allow", "BLOCK", "allo", "allowed", "block ", "deny", "any", "0"],
        b"threshold" => &["", "0", "1", "17", "02", "016", "-2", "+5", "5 ", "1e1", "x", "2", "16"],
        b"window" => &["", "0", "999999", "600000001", "01000000", "6e7", "1000000\r", "1_000_000", "1000000"],
        b"rules" => &["", "33", "00", "01", "032", "-1", "0", "1", "2", "31", "32", "65536", "1.0"],
        b"pattern" => &["", "6", "6g", "6A", "616", "+1", "0x61", "61 ", "61\r", "23", "ff", "00", "2b2f2b2f2b2f2b"],
        b"qos" => &["", "Any", "any ", "min", "min3", "MIN1", "only", "only3", "only00", "0", "2"],
        _ => &["", "65536", "00", "007", "-1", "+1", "1 ", "99999", "0x10", "65535", "0"],
    };
    let mut value = random.pick(bad).as_bytes().to_vec();
    match (key, random.below(5)) {
        (b"pattern", 0) => value = b"61".repeat(random.pick(&[64, 65, 127, 128, 129, 200])),
        (b"pattern", 1) => {
            let digits = b"61".repeat(random.pick(&[127, 128, 129]));
            value = [&digits[..], random.pick(&[&b"6"[..], b"6G", b"6g", b"zz"])].concat();
        }
        (b"default" | b"match" | b"action" | b"qos", _) => {}
        (_, 0) => value = random.pick(&[b"1", b"2", b"9"]).repeat(random.pick(&[20, 21, 100])),
        (_, 1) => {
            // What is this number again, where 64 bits are all that is looked at.
            let number = std::str::from_utf8(&lines[place][end + 1..]).ok().and_then(|value| value.trim().parse().ok());
            value = ((1u128 << 64) + number.unwrap_or(5)).to_string().into_bytes();
        }
        _ => {}
    }
    lines[place].truncate(end + 1);
    lines[place].extend(value);
    lines[place].push(b'\n');
    lines.concat()
}

/// Lines of one form under the other: the first line changed alone; or the line `match=` lost, doubled or put before
/// the one above it; or put in, where there is none.
fn reformed(random: &mut Random, text: &[u8]) -> Vec<u8> {
    let mut lines = lines(text);
    let found = lines.iter().position(|line| line.starts_with(b"match="));
    match (random.below(4), found) {
        (0, _) => lines[0] = if lines[0] == b"form=1\n" { b"form=2\n".to_vec() } else { b"form=1\n".to_vec() },
        (1, Some(place)) => _ = lines.remove(place),
        (2, Some(place)) => lines.insert(place, lines[place].clone()),
        (_, Some(place)) => lines.swap(place.saturating_sub(1), place),
        (_, None) => {
            let line = random.pick(&[&b"match=port\n"[..], b"match=standard\n"]).to_vec();
            lines.insert(some_line(random, lines.len()), line);
        }
    }
    lines.concat()
}

/// A line lost, doubled, emptied or put elsewhere; its key or its end another; or a line more.
fn relined(random: &mut Random, text: &[u8]) -> Vec<u8> {
    let mut lines = lines(text);
    let (place, other) = (some_line(random, lines.len()), random.below(lines.len()));
    let line = &mut lines[place];
    match random.below(11) {
        0 => _ = lines.remove(place),
        1 => lines.insert(place, lines[other].clone()),
        2 => lines.insert(place, lines[place].clone()),
        3 => lines.swap(place, other),
        4 => lines.insert(place, b"\n".to_vec()),
        5 => *line = b"\n".to_vec(),
        6 => line.iter_mut().take_while(|byte| **byte != b'=').for_each(|byte| byte.make_ascii_uppercase()),
        7 => line.insert(0, random.pick(b" =\r\n")),
        8 => line.retain(|&byte| byte != b'='),
        9 => line.insert(line.len() - 1, random.pick(b"\r \t\0=0a")),
        _ => lines.iter_mut().for_each(|line| line.insert(line.len() - 1, b'\r')),
    }
    lines.concat()
}

/// Something after the last line; or so much of it that the text is about as long as one may be, or longer.
fn ended(random: &mut Random, text: &[u8]) -> Vec<u8> {
    let more: [&[u8]; 8] = [b"\n", b"x", b"x\n", b"\0", b"rate=1\n", b"rate=1", b"form=1\n", text];
    let more = random.pick(&more);
    if !random.one_in(8) {
        return [text, more].concat();
    }
    let length = random.pick(&[LONGEST - 1, LONGEST, LONGEST + 1, LONGEST + 2, 2 * LONGEST]);
    text.iter().chain(more.iter().cycle()).take(length.max(text.len())).copied().collect()
}

/// A text that stops short: anywhere, at the end of a line, or before the last LF.
fn cut(random: &mut Random, text: &[u8]) -> Vec<u8> {
    let lines: Vec<&[u8]> = text.split_inclusive(|&byte| byte == b'\n').collect();
    let place = some_line(random, lines.len());
    let before = lines[..place].concat();
    match random.below(3) {
        0 => before,
        1 => [&before, &lines[place][..random.below(lines[place].len())]].concat(),
        _ => text[..text.len() - 1].to_vec(),
    }
}
