//! Damaged copies of a trace: what a wrong hand or a bad line makes of one.

use crate::tally::Random;

/// Values that are right for some key and wrong for others, or wrong for all.
fn values() -> Vec<Vec<u8>> {
    let words = [
        "",
        "0",
        "1",
        "2",
        "3",
        "9",
        "00",
        "01",
        "-1",
        "+1",
        " 1",
        "1 ",
        "1\r",
        "15",
        "16",
        "31",
        "32",
        "33",
        "0x1",
        "65535",
        "65536",
        "70000",
        "18446744073709551615",
        "18446744073709551616",
        "18446744073709551625",
        "99999999999999999999",
        "100000000000000000000",
        "1e3",
        "=1",
        "allow",
        "block",
        "Allow",
        "allo",
        "allowed",
        "ok",
        "bad",
        "OK",
        "any",
        "min0",
        "min2",
        "min3",
        "min",
        "only0",
        "only2",
        "only3",
        "only",
        "6",
        "6g",
        "6A",
        "6G",
        "61",
        "616",
        "2b",
        "23",
        "00",
        "612f2b",
        "2b2f2b2f2b2f2b",
        "6123",
        "ff",
        "6dc3",
        "c080",
        "zz",
        "\0",
        "\u{ff}",
    ];
    let mut values: Vec<Vec<u8>> = words.iter().map(|word| word.as_bytes().to_vec()).collect();
    for bytes in [64, 65, 127, 128, 129, 255, 256, 257] {
        values.push(b"61".repeat(bytes));
        values.push([&b"61".repeat(bytes)[..], b"6"].concat());
        values.push([&b"61".repeat(bytes)[2..], b"6g"].concat());
    }
    values
}

/// The lines of a text, their LF included.
fn lines(text: &[u8]) -> Vec<&[u8]> {
    text.split_inclusive(|&byte| byte == b'\n').collect()
}

/// A line with its value, if it has one, replaced.
fn revalued(line: &[u8], value: &[u8]) -> Vec<u8> {
    let key = line.iter().position(|&byte| byte == b'=').map_or(0, |place| place + 1);
    [&line[..key], value, b"\n"].concat()
}

/// One random damage: a byte changed, the end or a piece cut off, a piece or a line doubled, two lines swapped, a line
/// lost, or a value changed.
pub fn one(random: &mut Random, text: &[u8]) -> Vec<u8> {
    let (a, b) = (random.below(text.len()), random.below(text.len()));
    let (from, to) = (a.min(b), a.max(b));
    let mut lines = lines(text);
    let (line, other) = (random.below(lines.len()), random.below(lines.len()));
    match random.below(9) {
        0 => [&text[..from], &[random.next() as u8], &text[from + 1..]].concat(),
        1 => [&text[..from], &[random.pick(b"0123456789abcdefg=\n\r ")], &text[from + 1..]].concat(),
        2 => text[..from].to_vec(),
        3 => [&text[..from], &text[to..]].concat(),
        4 => [&text[..to], &text[from..]].concat(),
        5 => [&lines[..line], &[lines[other]], &lines[line..]].concat().concat(),
        6 => {
            lines.swap(line, other);
            lines.concat()
        }
        7 => [&lines[..line], &lines[line + 1..]].concat().concat(),
        _ => {
            let changed = revalued(lines[line], &random_value(random));
            [&lines[..line], &[&changed], &lines[line + 1..]].concat().concat()
        }
    }
}

fn random_value(random: &mut Random) -> Vec<u8> {
    let mut values = values();
    values.swap_remove(random.below(values.len()))
}

/// Every cut, every lost byte, every byte made one of a few others, every line lost, doubled, emptied, swapped with
/// the next or given each of the values.
pub fn every(text: &[u8]) -> Vec<Vec<u8>> {
    let mut copies = Vec::new();
    for place in 0..text.len() {
        copies.push(text[..place].to_vec());
        copies.push([&text[..place], &text[place + 1..]].concat());
        for &byte in b"0a=g\n\r \xff" {
            copies.push([&text[..place], &[byte], &text[place + 1..]].concat());
            copies.push([&text[..place], &[byte], &text[place..]].concat());
        }
    }
    let lines = lines(text);
    for line in 0..lines.len() {
        let (before, after) = (lines[..line].concat(), lines[line + 1..].concat());
        copies.push([&before[..], &after].concat());
        copies.push([&before, lines[line], lines[line], &after].concat());
        copies.push([&before[..], b"\n", &after].concat());
        if line + 1 < lines.len() {
            copies.push([&before, lines[line + 1], lines[line], &lines[line + 2..].concat()].concat());
        }
        for value in values() {
            copies.push([&before[..], &revalued(lines[line], &value), &after].concat());
        }
    }
    copies
}
