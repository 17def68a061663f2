//! What a side said to scripts, as it stands: each line with its answer, and the look at the whole state behind it.

use crate::answers::bytes;
use vs_mqtt_monitor::matcher::matches;

/// A line, and what was said to it.
#[derive(Clone, Copy)]
pub struct Said<'a> {
    pub line: &'a str,
    /// Behind the arrow.
    pub answer: &'a str,
    pub look: Look<'a>,
}

/// The look behind a line: how many rules count, and two tables, a record a line.
#[derive(Clone, Copy)]
pub struct Look<'a> {
    count: usize,
    rules: &'a str,
    buckets: &'a str,
}

/// Each line with what was said to it; nothing where that is not understood.
pub fn read(mut text: &str) -> impl Iterator<Item = Option<Said<'_>>> {
    std::iter::from_fn(move || (!text.is_empty()).then(|| said(&mut text)))
}

fn said<'a>(text: &mut &'a str) -> Option<Said<'a>> {
    let (line, answer) = block(text).split_once(" ->")?;
    let (head, tables) = block(text).strip_prefix("all ->")?.split_once("\n  rules")?;
    let (rules, tables) = tables.split_once("\n  buckets")?;
    let (buckets, _) = tables.split_once("\n  trackers")?;
    let count = head.rsplit_once(" rules=")?.1.parse().ok()?;
    Some(Said { line, answer, look: Look { count, rules, buckets } })
}

/// Takes a line off the text, with those behind it that begin with a space.
fn block<'a>(text: &mut &'a str) -> &'a str {
    let mut ends = text.match_indices('\n').map(|(at, _)| at + 1);
    let end = ends.find(|&at| !text[at..].starts_with(' ')).unwrap_or(text.len());
    let (block, behind) = text.split_at(end);
    *text = behind;
    block
}

/// The value of a field of a record.
fn field<'a>(record: &'a str, name: &str) -> Option<&'a str> {
    record.split(' ').find_map(|word| word.strip_prefix(name)?.strip_prefix('='))
}

/// Who holds a bucket that is live.
fn holder(record: &str) -> Option<&str> {
    let holder = record.find("hash=").map(|at| &record[at..]);
    holder.filter(|_| field(record, "live") == Some("1"))
}

impl<'a> Look<'a> {
    /// The rate under which a topic reaches the limiter; nothing if it does not. Where no field was set by hand, the rules
    /// that count are the first that are listed.
    pub fn rate(&self, topic: &[u8]) -> Option<u16> {
        let mut live = self.rules.split('\n').skip(1).take(self.count).filter(|rule| field(rule, "live") == Some("1"));
        let pattern = |rule| field(rule, "pattern").and_then(bytes);
        let rule = live.find(|rule| pattern(rule).is_some_and(|pattern| matches(topic, &pattern)))?;
        let rate = field(rule, "rate")?.parse().ok()?;
        (field(rule, "action") == Some("allow") && rate > 0).then_some(rate)
    }

    /// Whether the buckets are those of another look.
    pub fn same_buckets(&self, other: &Look) -> bool {
        self.buckets == other.buckets
    }

    /// The holder of the bucket that is no longer there, if one live bucket is gone and all others are as they were.
    pub fn taken(&self, after: &Look<'a>) -> Option<&'a str> {
        let [before, after] = [self, after].map(|look| look.buckets.split('\n'));
        let same = before.clone().zip(after.clone()).take_while(|(before, after)| before == after).count();
        let gone = before.clone().nth(same)?;
        let others = before.skip(same + 1).eq(after.skip(same));
        holder(gone).filter(|_| others)
    }

    /// Whether a topic, by what tells it from others, has a bucket.
    pub fn holds(&self, id: &str) -> bool {
        self.buckets.split('\n').any(|record| holder(record) == Some(id))
    }
}
