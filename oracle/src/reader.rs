//! A second reader of settings texts, and their writer: from document 01's words on the trace and from those of
//! requests C-13 and C-18, not from our code. A number or hex is good where it is what we would have written of its
//! value. What `add_rule` says to a pattern is the original's own word (`trace::rules`).

use trace::LONGEST;
use trace::rules::refusal;

pub const ACTIONS: [&str; 2] = ["allow", "block"];
pub const MATCHINGS: [&str; 2] = ["port", "standard"];
pub const POLICIES: [&str; 7] = ["any", "min0", "min1", "min2", "only0", "only1", "only2"];

/// Where something stands that is refused after the last line, or with no line.
pub const AFTER: &str = "a line after the end";
pub const NOWHERE: &str = "no line";

/// What a settings text says, and in which form; words as they stand in it. A text of form 1 does not say how rules
/// match, and means port.
#[derive(Clone, Debug, PartialEq)]
pub struct Settings {
    pub form: u32,
    pub default: &'static str,
    pub matching: &'static str,
    pub threshold: u64,
    pub window: u64,
    pub rules: Vec<Rule>,
}

/// One of its rules.
#[derive(Clone, Debug, PartialEq)]
pub struct Rule {
    pub pattern: Vec<u8>,
    pub action: &'static str,
    pub qos: &'static str,
    pub rate: u64,
}

/// Why a text is refused: the number, the line, and the key that stands there.
#[derive(Debug, PartialEq)]
pub struct Refused {
    pub number: u32,
    pub line: u64,
    pub at: &'static str,
}

/// What a text says, and how many lines it has; or its refusal.
pub type Read = Result<(Settings, u64), Refused>;

/// The text of settings, in their form.
pub fn text(settings: &Settings) -> Vec<u8> {
    let Settings { form, default, matching, threshold, window, rules } = settings;
    let mut text = format!("form={form}\ndefault={default}\n");
    if *form == 2 {
        text += &format!("match={matching}\n");
    }
    text += &format!("threshold={threshold}\nwindow={window}\nrules={}\n", rules.len());
    for Rule { pattern, action, qos, rate } in rules {
        text += &format!("pattern={}\naction={action}\nqos={qos}\nrate={rate}\n", hex(pattern));
    }
    text.into_bytes()
}

/// The settings in a form; or the number that refuses it: 29 where it is not known, 37 where it cannot say how the
/// rules match.
pub fn in_form(settings: &Settings, form: u32) -> Result<Settings, u32> {
    match form {
        1 if settings.matching != "port" => Err(37),
        1 | 2 => Ok(Settings { form, ..settings.clone() }),
        _ => Err(29),
    }
}

/// Bytes in hex.
fn hex(bytes: &[u8]) -> String {
    bytes.iter().map(|byte| format!("{byte:02x}")).collect()
}

/// Reads a text.
pub fn read(text: &[u8]) -> Read {
    if text.len() > LONGEST {
        return Err(Refused { number: 27, line: 0, at: NOWHERE });
    }
    let mut lines: Vec<&[u8]> = text.split(|&byte| byte == b'\n').collect();
    let cut_off = lines.pop().is_some_and(|rest| !rest.is_empty());
    let mut reader = Reader { lines, line: 0, at: NOWHERE };
    let number = match reader.settings() {
        Ok(settings) if reader.line == reader.lines.len() && !cut_off => return Ok((settings, reader.line as u64)),
        Ok(_) => {
            let number = if reader.line == reader.lines.len() { 26 } else { 21 };
            (reader.line, reader.at) = (reader.line + 1, AFTER);
            number
        }
        Err(number) => number,
    };
    Err(Refused { number, line: reader.line as u64, at: reader.at })
}

/// The lines that have their LF, and where we are: how many were looked for, and the last one's key.
struct Reader<'a> {
    lines: Vec<&'a [u8]>,
    line: usize,
    at: &'static str,
}

impl<'a> Reader<'a> {
    /// All lines in their order; the error is the number of the refusal.
    fn settings(&mut self) -> Result<Settings, u32> {
        let form = match self.value("form=")? {
            b"1" => 1,
            b"2" => 2,
            _ => return Err(29),
        };
        let default = self.word("default=", &ACTIONS)?;
        let matching = if form == 1 { "port" } else { self.word("match=", &MATCHINGS)? };
        let threshold = self.number("threshold=", 2, 16)?;
        let window = self.number("window=", 1_000_000, 600_000_000)?;
        let mut rules: Vec<Rule> = Vec::new();
        for _ in 0..self.number("rules=", 0, 32)? {
            let rule = self.rule()?;
            match refusal(&rule.pattern) {
                0 if rules.iter().any(|earlier| earlier.pattern == rule.pattern) => return Err(35),
                0 => rules.push(rule),
                number => return Err(number),
            }
        }
        Ok(Settings { form, default, matching, threshold, window, rules })
    }

    fn rule(&mut self) -> Result<Rule, u32> {
        let pattern = self.bytes("pattern=", 128)?;
        let action = self.word("action=", &ACTIONS)?;
        let qos = self.word("qos=", &POLICIES)?;
        let rate = self.number("rate=", 0, 65_535)?;
        Ok(Rule { pattern, action, qos, rate })
    }

    /// What stands behind the key in the next line.
    fn value(&mut self, key: &'static str) -> Result<&'a [u8], u32> {
        self.at = key;
        self.line += 1;
        let line = self.lines.get(self.line - 1).ok_or(26u32)?;
        line.strip_prefix(key.as_bytes()).ok_or(21)
    }

    fn word(&mut self, key: &'static str, words: &[&'static str]) -> Result<&'static str, u32> {
        let value = self.value(key)?;
        words.iter().copied().find(|word| word.as_bytes() == value).ok_or(23)
    }

    fn number(&mut self, key: &'static str, low: u64, high: u64) -> Result<u64, u32> {
        let value = self.value(key)?;
        let number = std::str::from_utf8(value).ok().and_then(|digits| digits.parse::<u64>().ok());
        let good = |number: &u64| (low..=high).contains(number) && number.to_string().as_bytes() == value;
        number.filter(good).ok_or(22)
    }

    fn bytes(&mut self, key: &'static str, most: usize) -> Result<Vec<u8>, u32> {
        let value = self.value(key)?;
        let byte = |pair: &[u8]| u8::from_str_radix(std::str::from_utf8(pair).ok()?, 16).ok();
        let bytes: Option<Vec<u8>> = value.chunks(2).map(byte).collect();
        let bytes = bytes.filter(|bytes| hex(bytes).as_bytes() == value).ok_or(24u32)?;
        if bytes.len() > most { Err(25) } else { Ok(bytes) }
    }
}
