//! The Rust driver of a whole trace: it reads the text of document 01's section "The trace", feeds the original
//! monitor and writes the answer. It is what `hub_trace` is compared with, byte by byte, and what its speed is
//! measured against. Built over each variant of the original: over `clock` the verdicts of the text are ignored, and
//! over all but `untouched` a bucket's step is not the original's but that of request C-17 (oracle/opened/kept.rs).

pub mod rules;

pub use vs_mqtt_monitor::step::KEPT;
use vs_mqtt_monitor::{MqttInspectResult, MqttMonitor, QosPolicy, TopicAction};
use vs_types_embedded::{MqttMessage, MqttPacketType, MqttQoS, opened};

/// The longest text that is looked at.
pub const LONGEST: usize = 65_536;

/// How a trace ended: 0 for a whole one or the number of its refusal, and the last or refused line.
#[derive(Clone, Copy, Debug, PartialEq, Eq)]
pub struct End {
    pub number: u32,
    pub line: u32,
}

/// Runs a trace and appends its answer to `out`.
pub fn run(text: &[u8], out: &mut Vec<u8>) -> End {
    run_watched(text, out, |_, _, _| {})
}

/// The same; `watch` sees the monitor, the message and the result after each message.
pub fn run_watched(
    text: &[u8],
    out: &mut Vec<u8>,
    watch: impl FnMut(&MqttMonitor, &MqttMessage, &MqttInspectResult),
) -> End {
    run_on(&mut MqttMonitor::new(), text, out, watch)
}

/// The same on a fresh monitor that is lent, and left as the messages leave it.
pub fn run_on(
    monitor: &mut MqttMonitor,
    text: &[u8],
    out: &mut Vec<u8>,
    mut watch: impl FnMut(&MqttMonitor, &MqttMessage, &MqttInspectResult),
) -> End {
    let mut reader = Reader { text, at: 0, line: 0 };
    let number = match messages(&mut reader, monitor, out, &mut watch) {
        Ok(()) => 0,
        Err(number) => number,
    };
    put_number(out, b"end=", number.into());
    put_number(out, b"line=", reader.line.into());
    put_number(out, b"inspected=", monitor.total_inspected());
    put_number(out, b"total=", monitor.total_alerts());
    End { number, line: reader.line }
}

/// Reads the opening and every message; the error is the number of the refusal, at the reader's line.
fn messages(
    reader: &mut Reader,
    monitor: &mut MqttMonitor,
    out: &mut Vec<u8>,
    watch: &mut impl FnMut(&MqttMonitor, &MqttMessage, &MqttInspectResult),
) -> Result<(), u32> {
    if reader.text.len() > LONGEST {
        return Err(27);
    }
    if reader.action(b"default=")? == TopicAction::Block {
        *monitor = MqttMonitor::new_deny_default();
    }
    for _ in 0..reader.number(b"rules=", 0, 32)? {
        read_rule(reader, monitor)?;
    }
    let mut message = MqttMessage::default();
    while reader.at < reader.text.len() {
        read_message(reader, &mut message)?;
        let result = monitor.inspect(&message);
        put_record(out, monitor.total_inspected(), &result);
        watch(monitor, &message, &result);
    }
    Ok(())
}

fn read_rule(reader: &mut Reader, monitor: &mut MqttMonitor) -> Result<(), u32> {
    let mut pattern = [0; 128];
    let pattern_len = reader.hex(b"pattern=", &mut pattern)?;
    let action = reader.action(b"action=")?;
    let policy = reader.policy(b"qos=")?;
    let rate = reader.number(b"rate=", 0, 65_535)? as u16;
    rules::add_rule(monitor, &pattern[..pattern_len], action, policy, rate).map(|_| ())
}

/// Reads one message into `message`, and sets the verdict for its inspection.
fn read_message(reader: &mut Reader, message: &mut MqttMessage) -> Result<(), u32> {
    message.timestamp_us = reader.number(b"at=", 0, u64::MAX)?;
    opened::set_verdict(reader.one_of(b"clock=", b"ok", b"bad")?);
    message.packet_type = MqttPacketType::from_raw(reader.number(b"type=", 1, 15)? as u8).ok_or(22u32)?;
    message.qos = MqttQoS::from_raw(reader.number(b"qos=", 0, 2)? as u8).ok_or(22u32)?;
    message.topic_len = reader.hex(b"topic=", &mut message.topic)? as u8;
    message.payload_len = reader.number(b"size=", 0, 65_535)? as u16;
    message.payload_inspectable_len = reader.hex(b"payload=", &mut message.payload)? as u16;
    Ok(())
}

/// The text, the place behind the lines read so far, and the number of the last one tried.
struct Reader<'a> {
    text: &'a [u8],
    at: usize,
    line: u32,
}

impl<'a> Reader<'a> {
    /// The value of the next line, which must have this key (its `=` included).
    fn value(&mut self, key: &[u8]) -> Result<&'a [u8], u32> {
        self.line += 1;
        let rest = &self.text[self.at..];
        let end = rest.iter().position(|&byte| byte == b'\n').ok_or(26u32)?;
        self.at += end + 1;
        rest[..end].strip_prefix(key).ok_or(21)
    }

    /// A decimal from `low` to `high` without spare zeros.
    fn number(&mut self, key: &[u8], low: u64, high: u64) -> Result<u64, u32> {
        let digits = self.value(key)?;
        if digits.is_empty() || (digits[0] == b'0' && digits.len() > 1) {
            return Err(22);
        }
        let mut number: u64 = 0;
        for &digit in digits {
            if !digit.is_ascii_digit() {
                return Err(22);
            }
            let value = u64::from(digit - b'0');
            number = number.checked_mul(10).and_then(|tens| tens.checked_add(value)).ok_or(22u32)?;
        }
        if (low..=high).contains(&number) { Ok(number) } else { Err(22) }
    }

    /// Whether the value is the first word; it must be one of the two.
    fn one_of(&mut self, key: &[u8], first: &[u8], second: &[u8]) -> Result<bool, u32> {
        let word = self.value(key)?;
        if word == first || word == second { Ok(word == first) } else { Err(23) }
    }

    fn action(&mut self, key: &[u8]) -> Result<TopicAction, u32> {
        Ok(if self.one_of(key, b"allow", b"block")? { TopicAction::Allow } else { TopicAction::Block })
    }

    fn policy(&mut self, key: &[u8]) -> Result<QosPolicy, u32> {
        match self.value(key)? {
            b"any" => Ok(QosPolicy::Any),
            b"min0" => Ok(QosPolicy::MinQoS(MqttQoS::AtMostOnce)),
            b"min1" => Ok(QosPolicy::MinQoS(MqttQoS::AtLeastOnce)),
            b"min2" => Ok(QosPolicy::MinQoS(MqttQoS::ExactlyOnce)),
            b"only0" => Ok(QosPolicy::ExactQoS(MqttQoS::AtMostOnce)),
            b"only1" => Ok(QosPolicy::ExactQoS(MqttQoS::AtLeastOnce)),
            b"only2" => Ok(QosPolicy::ExactQoS(MqttQoS::ExactlyOnce)),
            _ => Err(23),
        }
    }

    /// Hex into the front of `bytes`, which is as long as the value may be; how many bytes.
    fn hex(&mut self, key: &[u8], bytes: &mut [u8]) -> Result<usize, u32> {
        let digits = self.value(key)?;
        if digits.len() % 2 == 1 || !digits.iter().all(|digit| matches!(digit, b'0'..=b'9' | b'a'..=b'f')) {
            return Err(24);
        }
        let count = digits.len() / 2;
        if count > bytes.len() {
            return Err(25);
        }
        for (byte, pair) in bytes.iter_mut().zip(digits.chunks_exact(2)) {
            *byte = digit_value(pair[0]) * 16 + digit_value(pair[1]);
        }
        Ok(count)
    }
}

fn digit_value(digit: u8) -> u8 {
    if digit <= b'9' { digit - b'0' } else { digit - b'a' + 10 }
}

/// Adds the record of one message: its lines from `n=` on.
pub fn put_record(out: &mut Vec<u8>, ordinal: u64, result: &MqttInspectResult) {
    put_number(out, b"n=", ordinal);
    put_number(out, b"allowed=", result.allowed.into());
    put_number(out, b"alerts=", result.alert_count.into());
    for alert in &result.alerts[..result.alert_count as usize] {
        put_number(out, b"id=", alert.id);
        put_number(out, b"kind=", alert.source_id.into());
        put_number(out, b"severity=", alert.severity as u64);
        out.extend(b"hash=");
        for byte in alert.payload_hash.0 {
            out.extend([b"0123456789abcdef"[byte as usize / 16], b"0123456789abcdef"[byte as usize % 16]]);
        }
        out.push(b'\n');
    }
}

fn put_number(out: &mut Vec<u8>, key: &[u8], number: u64) {
    out.extend(key);
    let mut digits = [0; 20];
    let (mut from, mut rest) = (20, number);
    loop {
        from -= 1;
        digits[from] = b'0' + (rest % 10) as u8;
        rest /= 10;
        if rest == 0 {
            break;
        }
    }
    out.extend(&digits[from..]);
    out.push(b'\n');
}
