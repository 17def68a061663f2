//! settings [--seed N]: settings texts (requests C-13 and C-18) through the archive's `hub_settings` against a second
//! reader (reader.rs): number, line, length, and every byte of the lent buffer. The texts are those of random settings,
//! and damaged ones (texts.rs), in either form. A text that can be put into the other form must come home from there.
//! What they met is counted: each number, at each kind of line at which it can be; anything that was never met is a
//! failure.

mod damage;
mod hub;
mod make;
mod reader;
mod tally;
mod texts;

use hub::HubSettings;
use reader::{AFTER, NOWHERE, Read, Refused, Settings};
use std::collections::BTreeMap;
use tally::{Class, Random, show};

/// Texts for each seed, of random settings and as many damaged ones.
const TEXTS: usize = 10_000;

/// A text that loads, the same in form 2, and one that form 1 has no word for.
const EXAMPLE: &str = "form=1\ndefault=allow\nthreshold=5\nwindow=60000000\nrules=2\n\
    pattern=6d2f2b\naction=allow\nqos=any\nrate=1\npattern=c3a9\naction=block\nqos=only2\nrate=65535\n";
const PORT: &str = "form=2\ndefault=allow\nmatch=port\nthreshold=5\nwindow=60000000\nrules=2\n\
    pattern=6d2f2b\naction=allow\nqos=any\nrate=1\npattern=c3a9\naction=block\nqos=only2\nrate=65535\n";
const STANDARD: &str = "form=2\ndefault=allow\nmatch=standard\nthreshold=5\nwindow=60000000\nrules=2\n\
    pattern=6d2f2b\naction=allow\nqos=any\nrate=1\npattern=c3a9\naction=block\nqos=only2\nrate=65535\n";

/// Texts with the number and the line that the requests say: what stands in place of these words of the first example.
const KNOWN: [(&str, &str, u32, u64); 58] = [
    ("", "", 0, 13),
    ("form=1\n", "form=\n", 29, 1),
    ("form=1\n", "form=0\n", 29, 1),
    ("form=1\n", "form=01\n", 29, 1),
    ("form=1\n", "form=3\n", 29, 1),
    ("form=1\n", "form=2\n", 21, 3),
    ("form=1\n", "form=1 \n", 29, 1),
    ("form=1\n", "form=1\r\n", 29, 1),
    ("form=1\n", "FORM=2\n", 21, 1),
    ("form=1\n", "", 21, 1),
    ("form=1\n", "\nform=1\n", 21, 1),
    ("=allow\nt", "=Allow\nt", 23, 2),
    ("=allow\nt", "=allow\r\nt", 23, 2),
    ("=allow\nt", "=allow\nmatch=port\nt", 21, 3),
    ("=allow\nt", "=allow\nmatch=any\nt", 21, 3),
    ("default=", "match=port\ndefault=", 21, 2),
    ("threshold=5", "threshold=1", 22, 3),
    ("threshold=5", "threshold=2", 0, 13),
    ("threshold=5", "threshold=16", 0, 13),
    ("threshold=5", "threshold=17", 22, 3),
    ("threshold=5", "threshold=05", 22, 3),
    ("threshold=5", "threshold=", 22, 3),
    ("threshold=5", "threshold=+5", 22, 3),
    ("window=60000000", "window=0", 22, 4),
    ("window=60000000", "window=999999", 22, 4),
    ("window=60000000", "window=1000000", 0, 13),
    ("window=60000000", "window=600000000", 0, 13),
    ("window=60000000", "window=600000001", 22, 4),
    ("window=60000000", "window=18446744073769551616", 22, 4),
    ("rules=2", "rules=33", 22, 5),
    ("rules=2", "rules=3", 26, 14),
    ("rules=2", "rules=1", 21, 10),
    ("rules=2", "rules=0", 21, 6),
    ("6d2f2b", "", 9, 9),
    ("6d2f2b", "6d2f2", 24, 6),
    ("6d2f2b", "6d2f2B", 24, 6),
    ("6d2f2b", "00", 9, 9),
    ("6d2f2b", "00ff", 9, 9),
    ("6d2f2b", "ff", 36, 9),
    ("6d2f2b", "2b2f2b2f2b2f2b2fff", 36, 9),
    ("6d2f2b", "2b2f2b2f2b2f2b", 9, 9),
    ("6d2f2b", "6123", 9, 9),
    ("6d2f2b", "c3a9", 35, 13),
    ("c3a9", "6d2f2b", 35, 13),
    ("=allow\nq", "=deny\nq", 23, 7),
    ("qos=any", "qos=min3", 23, 8),
    ("qos=any", "qos=min2", 0, 13),
    ("rate=1\n", "rate=65536\n", 22, 9),
    ("rate=1\n", "rate=00\n", 22, 9),
    ("6d2f2b\naction=allow\nqos=any\nrate=1\n", "ff\naction=allow\nqos=any\nrate=x\n", 22, 9),
    ("rate=65535\n", "rate=65535", 26, 13),
    ("rate=65535\n", "65535", 26, 13),
    ("rate=65535\n", "rate=65535\n\n", 21, 14),
    ("rate=65535\n", "rate=65535\nx", 26, 14),
    ("rate=65535\n", "rate=65535\nrate=65535\n", 21, 14),
    ("rate=65535\n", "", 26, 13),
    ("qos=only2\nrate=65535\n", "", 26, 12),
    ("action=block\n", "qos=only2\n", 21, 11),
];

/// The same of the example that says standard.
const KNOWN_2: [(&str, &str, u32, u64); 44] = [
    ("", "", 0, 14),
    ("form=2\n", "form=1\n", 21, 3),
    ("form=2\n", "form=3\n", 29, 1),
    ("form=2\n", "form=02\n", 29, 1),
    ("form=2\n", "form=12\n", 29, 1),
    ("form=2\n", "form=2 \n", 29, 1),
    ("form=2\n", "form=2\r\n", 29, 1),
    ("=allow\nm", "=Allow\nm", 23, 2),
    ("=allow\nm", "=allow\n\nm", 21, 3),
    ("=standard", "=port", 0, 14),
    ("=standard", "=", 23, 3),
    ("=standard", "=Port", 23, 3),
    ("=standard", "=PORT", 23, 3),
    ("=standard", "=Standard", 23, 3),
    ("=standard", "=STANDARD", 23, 3),
    ("=standard", "=port ", 23, 3),
    ("=standard", "= port", 23, 3),
    ("=standard", "=standar", 23, 3),
    ("=standard", "=standards", 23, 3),
    ("=standard", "=port|standard", 23, 3),
    ("=standard", "=any", 23, 3),
    ("=standard", "=1", 23, 3),
    ("=standard\n", "=port\r\n", 23, 3),
    ("=standard\n", "=standard\r\n", 23, 3),
    ("match=", "MATCH=", 21, 3),
    ("match=", "match", 21, 3),
    ("match=", "matches=", 21, 3),
    ("match=standard\n", "", 21, 3),
    ("match=standard\n", "\n", 21, 3),
    ("match=standard\n", "match=standard\nmatch=standard\n", 21, 4),
    ("match=standard\n", "match=standard\nmatch=port\n", 21, 4),
    ("default=allow\nmatch=standard\n", "match=standard\ndefault=allow\n", 21, 2),
    ("match=standard\nthreshold=5\n", "threshold=5\nmatch=standard\n", 21, 3),
    ("threshold=5", "threshold=1", 22, 4),
    ("window=60000000", "window=0", 22, 5),
    ("rules=2", "rules=33", 22, 6),
    ("rules=2", "rules=3", 26, 15),
    ("rules=2", "rules=1", 21, 11),
    ("rules=2", "rules=0", 21, 7),
    ("6d2f2b", "6d2f2B", 24, 7),
    ("6d2f2b", "ff", 36, 10),
    ("c3a9", "6d2f2b", 35, 14),
    ("rate=65535\n", "rate=65535", 26, 14),
    ("rate=65535\n", "rate=65535\nmatch=standard\n", 21, 15),
];

/// The line of 26 where the text stops behind these words of that example.
const CUT: [(&str, u64); 8] = [
    ("form=2", 1),
    ("form=2\n", 2),
    ("default=allow\n", 3),
    ("\nmat", 3),
    ("match=", 3),
    ("match=standard", 3),
    ("match=standard\n", 4),
    ("threshold=5\n", 5),
];

/// At each kind of line the numbers that a text can be refused with there.
const REFUSALS: [(&str, &[u32]); 12] = [
    (NOWHERE, &[27]),
    ("form=", &[26, 21, 29]),
    ("default=", &[26, 21, 23]),
    ("match=", &[26, 21, 23]),
    ("threshold=", &[26, 21, 22]),
    ("window=", &[26, 21, 22]),
    ("rules=", &[26, 21, 22]),
    ("pattern=", &[26, 21, 24, 25]),
    ("action=", &[26, 21, 23]),
    ("qos=", &[26, 21, 23]),
    ("rate=", &[26, 21, 22, 9, 36, 35]),
    (AFTER, &[26, 21]),
];

/// What else texts that load must have met; those that are turned are written in the other form.
const MORE: [&str; 21] = [
    "form 1 written by 0",
    "form 1 written by 1",
    "form 1 turned to 2",
    "form 2 written by 0",
    "form 2 written by 2",
    "form 2 turned to 1",
    "form 1 there and back",
    "form 2 there and back",
    "29 for the form asked for",
    "37",
    "37 with no room",
    "28 with no room",
    "28 with room for all but a byte",
    "28 so, turned to 2",
    "28 so, turned to 1",
    "room that is just enough",
    "room just enough, turned to 2",
    "room just enough, turned to 1",
    "room to spare",
    "texts without rules",
    "texts with 32 rules",
];

/// Texts that would be refused with 37 if their own refusal did not come first.
const BEFORE_37: &str = "refused texts that say standard, asked for in form 1";

/// What is to be written of a text in a form, and the text's last line; or the number and the line that refuse it.
type Written = Result<(Vec<u8>, u64), (u32, u64)>;

fn main() {
    let words: Vec<String> = std::env::args().skip(1).collect();
    let seeds = tally::seeds(&words);
    let mut run = Run { refusals: BTreeMap::new(), more: BTreeMap::new(), classes: Vec::new() };
    run.known();
    run.every_damage();
    for seed in seeds {
        let random = &mut Random(seed);
        let whole = |random: &mut Random| reader::text(&texts::settings(random));
        run.random(format!("texts of random settings, seed {seed}"), random, whole);
        run.random(format!("damaged texts, seed {seed}"), random, texts::damaged);
    }
    run.met();
    if !tally::report(&run.classes) {
        std::process::exit(1);
    }
}

/// The classes so far, and how often each refusal and anything else was met.
struct Run {
    refusals: BTreeMap<(&'static str, u32), u64>,
    more: BTreeMap<&'static str, u64>,
    classes: Vec<Class>,
}

impl Run {
    /// Texts whose answers are known without a reader: the second one must say so too.
    fn known(&mut self) {
        let mut class = Class::new("texts with answers that are known");
        let mut known: Vec<(Vec<u8>, u32, u64)> = Vec::new();
        for (example, changes) in [(EXAMPLE, &KNOWN[..]), (STANDARD, &KNOWN_2)] {
            for &(old, new, number, line) in changes {
                assert!(example.contains(old), "{old}");
                known.push((example.replacen(old, new, 1).into(), number, line));
            }
        }
        for (words, line) in CUT {
            let end = STANDARD.find(words).expect(words) + words.len();
            known.push((STANDARD[..end].into(), 26, line));
        }
        let form = |digits: String| format!("form={digits}\n").into_bytes();
        let pattern = |digits: String| EXAMPLE.replacen("6d2f2b", &digits, 1).into_bytes();
        known.push((texts::longest(1), 0, 133));
        known.push((texts::longest(2), 0, 134));
        known.push((form("1".repeat(100)), 29, 1));
        known.push((form("2".repeat(100)), 29, 1));
        known.push((b"".to_vec(), 26, 1));
        for (length, number, line) in [(65_536, 26, 1), (65_537, 27, 0)] {
            known.push((vec![b'x'; length], number, line));
        }
        for (bytes, number, line) in [(64, 0, 13), (65, 9, 9), (128, 9, 9), (129, 25, 6)] {
            known.push((pattern("61".repeat(bytes)), number, line));
        }
        known.push((pattern("61".repeat(129) + "6"), 24, 6));
        known.push((pattern("61".repeat(129) + "6g"), 24, 6));
        let rooms: [fn(usize) -> usize; 4] =
            [|_| 0, |length| length.saturating_sub(1), |length| length, |length| length + 7];
        for (text, number, line) in known {
            let said = match reader::read(&text) {
                Ok((_, lines)) => (0, lines),
                Err(refused) => (refused.number, refused.line),
            };
            assert_eq!(said, (number, line), "the second reader: {}", text.escape_ascii());
            for form in [0, 1, 2, 3] {
                rooms.iter().for_each(|room| self.compare(&mut class, &text, form, room));
            }
        }
        assert_eq!([1, 2].map(|form| texts::longest(form).len()), [5532, 5547]);
        let turned = |text: &str, form| written(&reader::read(text.as_bytes()), form);
        assert_eq!(turned(EXAMPLE, 2), Ok((PORT.into(), 13)));
        assert_eq!(turned(PORT, 1), Ok((EXAMPLE.into(), 14)));
        assert_eq!(turned(STANDARD, 1), Err((37, 14)));
        self.classes.push(class);
    }

    fn every_damage(&mut self) {
        let mut class = Class::new("an example of each form, and every small damage of it");
        for text in [EXAMPLE, STANDARD].iter().flat_map(|example| damage::every(example.as_bytes())) {
            for form in [0, 1, 2] {
                self.compare(&mut class, &text, form, |length| length);
            }
        }
        self.classes.push(class);
    }

    /// Texts of a maker, each written with room enough, and once more in any form with any room.
    fn random(&mut self, name: String, random: &mut Random, make: impl Fn(&mut Random) -> Vec<u8>) {
        let mut class = Class::new(name);
        for _ in 0..TEXTS {
            let text = make(random);
            let (form, spare) = (random.below(3) as u32, random.below(2) * random.below(200));
            self.compare(&mut class, &text, form, |length| length + spare);
            let any = random.next() as u32;
            let (form, place) = (random.pick(&[0, 1, 1, 2, 2, 3, any]), random.below(6));
            self.compare(&mut class, &text, form, |length| {
                let short = length.saturating_sub(1);
                [0, length / 2, short, short, length, length + 1][place]
            });
        }
        self.classes.push(class);
    }

    /// Compares the answers to one text, in this form and with room by the length of what is to be written, or of the
    /// text where nothing is. One that can be turned must come home. What the text met is counted.
    fn compare(&mut self, class: &mut Class, text: &[u8], form: u32, room: impl Fn(usize) -> usize) {
        let read = reader::read(text);
        let written = written(&read, form);
        let room = room(written.as_ref().map_or(text.len(), |(text, _)| text.len()));
        let mut wrong = answered(text, form, room, &written);
        match &read {
            Ok((settings, _)) => {
                assert!(reader::text(settings) == text, "the second writer: {}", text.escape_ascii());
                let turns = reader::in_form(settings, 3 - settings.form).is_ok();
                self.count_more(settings, turns, form, room, &written);
                if turns {
                    wrong = wrong.or_else(|| home_again(text, settings.form));
                }
            }
            Err(Refused { number, at, .. }) => {
                *self.refusals.entry((at, *number)).or_default() += 1;
                let standard = text.split(|&byte| byte == b'\n').any(|line| line == b"match=standard");
                *self.more.entry(BEFORE_37).or_default() += u64::from(standard && form == 1);
            }
        }
        if let Some(wrong) = wrong {
            class.differ(text.len(), || saved(text, self.classes.len(), &wrong));
        }
        class.agree();
    }

    /// Counts how a text that loads was to be written, and whether it turns.
    fn count_more(&mut self, settings: &Settings, turns: bool, form: u32, room: usize, written: &Written) {
        let Settings { form: own, rules, .. } = settings;
        let length = written.as_ref().ok().map(|(text, _)| text.len());
        let refused = written.as_ref().err().map(|(number, _)| *number);
        let [short, enough] = [room + 1, room].map(|room| length == Some(room));
        let [none, fits] = [room == 0, length.is_some_and(|length| room >= length)];
        let [to_2, to_1] = [(1, 2), (2, 1)].map(|turned| turned == (*own, form));
        let met = [
            (*own, form) == (1, 0) && fits,
            (*own, form) == (1, 1) && fits,
            to_2 && fits,
            (*own, form) == (2, 0) && fits,
            (*own, form) == (2, 2) && fits,
            to_1 && fits,
            *own == 1 && turns,
            *own == 2 && turns,
            refused == Some(29),
            refused == Some(37),
            refused == Some(37) && none,
            length.is_some() && none,
            short,
            to_2 && short,
            to_1 && short,
            enough,
            to_2 && enough,
            to_1 && enough,
            fits && !enough,
            rules.is_empty(),
            rules.len() == 32,
        ];
        for (what, met) in MORE.into_iter().zip(met) {
            *self.more.entry(what).or_default() += u64::from(met);
        }
    }

    /// One class for all that a run must have met, and no refusal besides.
    fn met(&mut self) {
        let mut class = Class::new("every number at every kind of line");
        let all: Vec<(&str, u32)> =
            REFUSALS.iter().flat_map(|(at, numbers)| numbers.iter().map(move |&number| (*at, number))).collect();
        for pair in &all {
            class.seen(&format!("{} at {}", pair.1, pair.0), self.refusals.get(pair).copied().unwrap_or(0));
            class.agree();
        }
        for (at, number) in self.refusals.keys().filter(|pair| !all.contains(pair)) {
            class.differ(0, || format!("a text was refused with {number} at {at}, where that cannot be"));
        }
        for what in MORE.into_iter().chain([BEFORE_37]) {
            class.seen(what, self.more.get(what).copied().unwrap_or(0));
            class.agree();
        }
        self.classes.push(class);
    }
}

/// What is to be written of a text that was read so, in a form, 0 for its own.
fn written(read: &Read, form: u32) -> Written {
    let (settings, lines) = match read {
        Ok((settings, lines)) => (settings, *lines),
        Err(Refused { number, line, .. }) => return Err((*number, *line)),
    };
    let form = if form == 0 { settings.form } else { form };
    match reader::in_form(settings, form) {
        Ok(settings) => Ok((reader::text(&settings), lines)),
        Err(37) => Err((37, lines)),
        Err(number) => Err((number, 0)),
    }
}

/// What `hub_settings` must answer where this is to be written, with so much room.
fn wanted(written: &Written, room: usize) -> HubSettings {
    let (number, line, length) = match written {
        Err((number, line)) => (*number, *line, 0),
        Ok((text, _)) if room < text.len() => (28, 0, 0),
        Ok((text, lines)) => (0, *lines, text.len()),
    };
    HubSettings { number, line, length }
}

/// What is wrong with the archive's answer, if anything.
fn answered(text: &[u8], form: u32, room: usize, written: &Written) -> Option<String> {
    let wanted = wanted(written, room);
    // A byte that no text has at this place, and some behind the room.
    let mut kept: Vec<u8> = (0..room + 16).map(|place| !text.get(place).unwrap_or(&0x5a)).collect();
    let mut buffer = kept.clone();
    let answer = hub::settings(text, form, &mut buffer[..room]);
    if let (0, Ok((text, _))) = (wanted.number, written) {
        kept[..text.len()].copy_from_slice(text);
    }
    if answer == wanted && buffer == kept {
        return None;
    }
    let mut words = format!("form {form}, room for {room} bytes: hub {answer:?}, expected {wanted:?}");
    if let Some(place) = (0..kept.len()).find(|&place| buffer[place] != kept[place]) {
        words += &format!("; byte {place} of the room is {}, expected {}", buffer[place], kept[place]);
    }
    Some(words)
}

/// What is wrong with a text that the archive puts into the other form and back into its own, if anything.
fn home_again(text: &[u8], own: u32) -> Option<String> {
    let turned = |text: &[u8], form| {
        let mut room = vec![0; text.len() + 100];
        let HubSettings { number, length, .. } = hub::settings(text, form, &mut room);
        room.truncate(length);
        if number == 0 { Ok(room) } else { Err(number) }
    };
    let other = 3 - own;
    let there = turned(text, other);
    let back = there.clone().and_then(|there| turned(&there, own));
    if back.as_deref() == Ok(text) {
        return None;
    }
    let said = |text: Result<Vec<u8>, u32>| text.map_or_else(|number| number.to_string(), |text| show(&text));
    Some(format!("to form {other} and back: {}, then {}", said(there), said(back)))
}

/// Writes a text beside this program, and says where and what is wrong with the answer to it.
fn saved(text: &[u8], name: usize, wrong: &str) -> String {
    let path = std::env::current_exe().unwrap().with_file_name(format!("differs-settings-{name}.text"));
    std::fs::write(&path, text).unwrap();
    format!("{} of {} bytes: {wrong}", path.display(), text.len())
}
