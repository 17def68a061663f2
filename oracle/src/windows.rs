//! What a removal can cost (request C-24), counted in what one side said and in nothing else: from one message of a topic
//! that reaches the limiter under a rate R to another D microseconds later, both counted, with K removals of buckets
//! between the two, of any topics, at most (K + 1) x R + R x D / 1,000,000 are allowed, rounded down. With no removal it
//! is the upper half of demand 3. Of K those removals are counted that the topic felt, after which it had no bucket: so
//! what is held is less than the request's bound, or that. And a removal takes one bucket, or is refused and takes none.
//!
//! A run begins with a constructor, with a reset of a state in which nothing was set by hand, or with settings that were
//! reloaded. Up to its first message any call may come. It ends where a rule is changed, a field is set by hand or the
//! time goes back. The messages of a run of packets are those that the second reader finds in its line, and of them
//! those that have a record.

use crate::answers::{NEW, NEW_DENY_DEFAULT, bytes, id_words};
use crate::mqtt;
use crate::said::{self, Look, Said};
use crate::tally::Class;
use std::collections::BTreeMap;
use vs_mqtt_monitor::opened::contains_invalid_publish_char;
use vs_mqtt_monitor::state::identity;

/// What windows must have met.
const MET: [&str; 15] = [
    "with no removal",
    "with one",
    "with more",
    "at the bound with no removal",
    "at the bound with one",
    "at the bound with more",
    "over it if removals did not count",
    "over it so by removals of others alone",
    "with one that was not felt",
    "at the bound of those that were felt, below the other",
    "with a refused removal",
    "with a tracker removed",
    "with a storm setting",
    "with a run of packets",
    "within a run of packets",
];

/// The windows that one side's answers have.
pub struct Windows {
    pub class: Class,
    met: [u64; MET.len()],
    /// Removals that were refused, and that were not.
    removals: [u64; 2],
}

/// Something that must not be.
pub struct Fault {
    /// The lines from the constructor on, and how many of the last ones are the window.
    pub lines: Vec<String>,
    pub window: usize,
    pub words: String,
}

/// Calls between the messages of a window.
#[derive(Clone, Copy, Default)]
struct Between {
    removed: usize,
    /// Those of the topic itself.
    own: usize,
    /// Those after which the topic had no bucket.
    felt: usize,
    refused: usize,
    trackers: usize,
    settings: usize,
    queues: usize,
}

/// A message that reached the limiter: its line and time, the messages of its topic that were allowed before it and with
/// it, and the calls before it.
struct Message {
    line: usize,
    at: u64,
    before: usize,
    with: usize,
    calls: Between,
}

/// A topic identity in a run; no rate if it had two.
#[derive(Default)]
struct Topic {
    rate: Option<u16>,
    own: usize,
    felt: usize,
    messages: Vec<Message>,
}

/// Where a run is.
#[derive(Default, PartialEq)]
enum Run {
    /// No message yet.
    Fresh,
    /// The time of the last message.
    At(u64),
    #[default]
    Over,
}

/// One side's answers since a constructor.
#[derive(Default)]
struct Reader<'a> {
    said: Vec<Said<'a>>,
    by_hand: bool,
    run: Run,
    topics: BTreeMap<String, Topic>,
    calls: Between,
    fault: Option<Fault>,
}

impl Windows {
    pub fn new(name: &str) -> Windows {
        Windows { class: Class::new(name), met: [0; MET.len()], removals: [0; 2] }
    }

    /// Counts all windows of what was said; the smallest fault, if there is any.
    pub fn read(&mut self, text: &str) -> Option<Fault> {
        let mut reader = Reader::default();
        for said in said::read(text) {
            if said.is_none_or(|said| reader.line(said, self).is_none()) {
                reader.wrong(0, reader.said.len(), "what is said then is not understood".into());
                break;
            }
        }
        reader.end(self);
        reader.fault
    }

    /// Everything that must have been met, in the class.
    pub fn seen(mut self) -> Class {
        let removals = ["removals that took nothing", "that took one bucket"];
        for (what, times) in MET.iter().zip(self.met).chain(removals.iter().zip(self.removals)) {
            self.class.seen(what, times);
        }
        self.class
    }
}

impl<'a> Reader<'a> {
    /// One line more, unless it is not understood.
    fn line(&mut self, said: Said<'a>, windows: &mut Windows) -> Option<()> {
        let words: Vec<&str> = said.line.split(' ').collect();
        let (done, refused) = (said.answer.starts_with(" done="), said.answer.starts_with(" refused="));
        if let NEW | NEW_DENY_DEFAULT = words[0] {
            self.end(windows);
            self.said.clear();
            self.said.push(said);
            (self.by_hand, self.run) = (false, Run::Fresh);
            return Some(());
        }
        let before = self.said.last()?.look;
        self.said.push(said);
        match words[0] {
            "remove_rate_bucket" => self.removal(before, done, windows),
            _ if refused => {}
            "inspect" | "inspect_claimed" => self.message(before, &words[1..], windows)?,
            "queue" => self.queue(before, &words[1..], windows)?,
            "remove_ewma_tracker" => self.calls.trackers += 1,
            "set_connect_storm_params" => self.calls.settings += 1,
            "validate_rules" | "counters" | "standing" | "tokens_left" | "covered_rules" | "later_name" => {}
            "add_rule" | "remove_rule" | "swap_rules" | "clear_rules" if self.run == Run::Fresh => {}
            "add_rule" | "remove_rule" | "swap_rules" | "clear_rules" => self.end(windows),
            "reset_state" => {
                self.end(windows);
                self.run = if self.by_hand { Run::Over } else { Run::Fresh };
            }
            "reload" => {
                self.end(windows);
                (self.by_hand, self.run) = (false, Run::Fresh);
            }
            // A field that is set by hand.
            _ => {
                self.end(windows);
                self.by_hand = true;
            }
        }
        Some(())
    }

    /// A removal takes one live bucket and leaves all others, or is refused and leaves the table.
    fn removal(&mut self, before: Look<'a>, done: bool, windows: &mut Windows) {
        let last = self.said.len() - 1;
        let after = self.said[last].look;
        windows.removals[usize::from(done)] += 1;
        if done {
            self.calls.removed += 1;
            for (id, topic) in &mut self.topics {
                topic.felt += usize::from(!after.holds(id));
            }
            match before.taken(&after) {
                Some(holder) => self.topics.entry(holder.into()).or_default().own += 1,
                None => self.wrong(last, last + 1, "a removal that does not take one live bucket alone".into()),
            }
        } else {
            self.calls.refused += 1;
            if !before.same_buckets(&after) {
                self.wrong(last, last + 1, "a removal that is refused and changes a bucket".into());
            }
        }
    }

    /// A message that was inspected.
    fn message(&mut self, before: Look<'a>, words: &[&str], windows: &mut Windows) -> Option<()> {
        let allowed = self.said.last()?.answer.strip_prefix(" allowed=")?.starts_with('1');
        let (at, kind) = (words.first()?.parse().ok()?, words.get(2)?.parse().ok()?);
        let mut topic = bytes(words.get(4)?.trim_start_matches('-'))?;
        let claimed = words.get(7).map_or(Some(topic.len()), |claimed| claimed.parse().ok())?;
        topic.truncate(claimed.min(128));
        self.inspected(before, at, kind, &topic, allowed, windows);
        Some(())
    }

    /// The messages of a run of packets that have a record; no rule changes between them.
    fn queue(&mut self, before: Look<'a>, words: &[&str], windows: &mut Windows) -> Option<()> {
        let (at, packets) = (words.first()?.parse().ok()?, bytes(words.get(3)?.trim_start_matches('-'))?);
        let records = self.said.last()?.answer.split('\n');
        let mut verdicts = records.filter_map(|line| line.strip_prefix("   allowed=")).peekable();
        let mut place = 0;
        self.calls.queues += 1;
        while verdicts.peek().is_some() {
            let packet = mqtt::read(&packets, place).ok()?;
            for message in &packet.messages {
                let allowed = verdicts.next()? == "1";
                self.inspected(before, at, message.kind, message.topic, allowed, windows);
            }
            place += packet.length;
        }
        Some(())
    }

    /// A message that was inspected under the rules of this look.
    fn inspected(&mut self, before: Look, at: u64, kind: u8, topic: &[u8], allowed: bool, windows: &mut Windows) {
        match self.run {
            Run::Over => return,
            Run::At(last) if at < last => return self.end(windows),
            _ => self.run = Run::At(at),
        }
        // Only such a topic may be matched.
        let plain = kind == mqtt::PUBLISH && !topic.is_empty() && !contains_invalid_publish_char(topic);
        let Some(rate) = plain.then(|| before.rate(topic)).flatten() else { return };
        let (line, found) = (self.said.len() - 1, self.topics.entry(id_words(&identity(topic))).or_default());
        let known = if found.messages.is_empty() { Some(rate) } else { found.rate };
        found.rate = known.filter(|&known| known == rate);
        let before = found.messages.last().map_or(0, |last| last.with);
        let with = before + usize::from(allowed);
        let calls = Between { own: found.own, felt: found.felt, ..self.calls };
        found.messages.push(Message { line, at, before, with, calls });
    }

    /// The end of a run: each pair of messages of a topic that had one rate is a window.
    fn end(&mut self, windows: &mut Windows) {
        for (id, topic) in std::mem::take(&mut self.topics) {
            let Some(rate) = topic.rate else { continue };
            for (place, first) in topic.messages.iter().enumerate() {
                for last in &topic.messages[place..] {
                    self.window(&id, u128::from(rate), first, last, windows);
                }
            }
        }
        (self.run, self.calls) = (Run::Over, Between::default());
    }

    fn window(&mut self, id: &str, rate: u128, first: &Message, last: &Message, windows: &mut Windows) {
        let (allowed, past) = ((last.with - first.before) as u128, last.at - first.at);
        let (removed, felt) = (last.calls.removed - first.calls.removed, last.calls.felt - first.calls.felt);
        let least = rate + rate * u128::from(past) / 1_000_000;
        let [bound, most] = [removed, felt].map(|removals| least + rate * removals as u128);
        let (at, over) = (allowed == bound, allowed > least);
        let met = [
            removed == 0,
            removed == 1,
            removed > 1,
            removed == 0 && at,
            removed == 1 && at,
            removed > 1 && at,
            over,
            over && first.calls.own == last.calls.own,
            felt < removed,
            allowed == most && most < bound,
            first.calls.refused < last.calls.refused,
            first.calls.trackers < last.calls.trackers,
            first.calls.settings < last.calls.settings,
            first.calls.queues < last.calls.queues,
            first.line == last.line && first.with < last.with,
        ];
        windows.met.iter_mut().zip(met).for_each(|(times, met)| *times += u64::from(met));
        windows.class.agree();
        if allowed > most {
            let words = format!(
                "{allowed} allowed of {id}, at most {most} by rate {rate}, {past} microseconds and {felt} of {removed} removals"
            );
            self.wrong(first.line, last.line + 1, words);
        }
    }

    /// Something that must not be, in these lines; it is kept if no smaller one is.
    fn wrong(&mut self, first: usize, behind: usize, words: String) {
        let window = behind - first;
        if self.fault.as_ref().is_none_or(|fault| window < fault.window) {
            let lines = self.said[..behind].iter().map(|said| said.line.into()).collect();
            self.fault = Some(Fault { lines, window, words });
        }
    }
}
