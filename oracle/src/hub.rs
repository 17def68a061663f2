//! The exports of the archives of hub, desk, boot, jack and wake, as safe functions on slices. The C declarations stand
//! in include/hub.h; a slice crosses as pointer and length, and a Rust slice always meets the duties named there.

use std::fmt::{Debug, Formatter, Result};

/// The two hashes that tell clients apart.
#[repr(C)]
#[derive(Clone, Copy, Debug, PartialEq, Eq)]
pub struct HubClientHashes {
    pub hash: u32,
    pub hash2: u32,
}

/// How a trace ended: 0 for a whole one or the number of its refusal, the last or refused line, and how many bytes the
/// answer has.
#[repr(C)]
#[derive(Clone, Copy, Debug, PartialEq, Eq)]
pub struct HubTrace {
    pub number: u32,
    pub line: u64,
    pub length: usize,
}

/// How settings were written back: 0, the text's last line and how many bytes were written; or a number, the refused line,
/// which is the last one with 37, and 0.
#[repr(C)]
#[derive(Clone, Copy, Debug, PartialEq, Eq)]
pub struct HubSettings {
    pub number: u32,
    pub line: u64,
    pub length: usize,
}

/// What stands at a place: 0, a whole packet's length from its first byte and how many messages it gives; or the number of
/// its refusal, 0 and 0.
#[repr(C)]
#[derive(Clone, Copy, Debug, PartialEq, Eq)]
pub struct HubPacket {
    pub number: u32,
    pub length: usize,
    pub messages: usize,
}

/// How a packet's messages were written: 0 and how many bytes were written; or a number and 0. The line is always 0.
#[repr(C)]
#[derive(Clone, Copy, Debug, PartialEq, Eq)]
pub struct HubPacketLines {
    pub number: u32,
    pub line: u64,
    pub length: usize,
}

/// How a run of packets ended: 0 for a whole one or the number that ended it, the place of the packet at which it ended,
/// how many messages were done, how many bytes their records have, and the monitor's two counts afterwards.
#[repr(C)]
#[derive(Clone, Copy, Debug, PartialEq, Eq)]
pub struct HubQueue {
    pub number: u32,
    pub place: usize,
    pub done: u64,
    pub length: usize,
    pub inspected: u64,
    pub total: u64,
}

/// A name that only the later of two patterns matches, and zeros behind it. Its length is 0 where there is none, and where
/// a number refuses one of the patterns.
#[repr(C)]
#[derive(Clone, Copy, PartialEq, Eq)]
pub struct HubWitness {
    pub number: u32,
    pub length: usize,
    pub name: [u8; 128],
}

impl Debug for HubWitness {
    /// The name up to its last byte that is not zero, which the length should say.
    fn fmt(&self, out: &mut Formatter) -> Result {
        let used = self.name.iter().rposition(|&byte| byte != 0).map_or(0, |last| last + 1);
        let name = self.name[..used].escape_ascii();
        write!(out, "number {} with {} bytes of \"{name}\"", self.number, self.length)
    }
}

mod raw {
    use super::{HubClientHashes, HubPacket, HubPacketLines, HubQueue, HubSettings, HubTrace, HubWitness};

    #[rustfmt::skip]
    unsafe extern "C" {
        pub fn hub_fnv1a_hash(data: *const u8, data_len: usize) -> u32;
        pub fn hub_djb2_hash(data: *const u8, data_len: usize) -> u32;
        pub fn hub_suffix_hash(topic: *const u8, topic_len: usize) -> u32;
        pub fn hub_client_hashes(client_id: *const u8, client_id_len: usize) -> HubClientHashes;
        pub fn hub_compute_payload_hash(data: *const u8, data_len: usize, out: *mut [u8; 32]);
        pub fn hub_is_utf8(bytes: *const u8, bytes_len: usize) -> bool;
        pub fn hub_validate_mqtt_wildcard(pattern: *const u8, pattern_len: usize) -> bool;
        pub fn hub_pattern_refusal(pattern: *const u8, pattern_len: usize) -> u32;
        pub fn hub_topic_matches(topic: *const u8, topic_len: usize, pattern: *const u8, pattern_len: usize) -> bool;
        pub fn hub_standard_matches(name: *const u8, name_len: usize, pattern: *const u8, pattern_len: usize) -> u32;
        pub fn hub_is_broad_wildcard_subscribe(topic: *const u8, topic_len: usize) -> bool;
        pub fn hub_starts_with_dollar(topic: *const u8, topic_len: usize) -> bool;
        pub fn hub_contains_invalid_publish_char(topic: *const u8, topic_len: usize) -> bool;
        pub fn hub_trace(text: *const u8, text_len: usize, out: *mut u8, out_len: usize) -> HubTrace;
        pub fn hub_trace_length(text: *const u8, text_len: usize) -> HubTrace;
        pub fn hub_trace_standard(text: *const u8, text_len: usize, out: *mut u8, out_len: usize) -> HubTrace;
        pub fn hub_trace_standard_length(text: *const u8, text_len: usize) -> HubTrace;
        pub fn hub_settings(text: *const u8, text_len: usize, form: u32, out: *mut u8, out_len: usize) -> HubSettings;
        pub fn hub_standing(text: *const u8, text_len: usize, out: *mut u8, out_len: usize) -> HubTrace;
        pub fn hub_standing_standard(text: *const u8, text_len: usize, out: *mut u8, out_len: usize) -> HubTrace;
        pub fn hub_packet(bytes: *const u8, bytes_len: usize, place: usize) -> HubPacket;
        pub fn hub_packet_lines(bytes: *const u8, bytes_len: usize, place: usize, at: u64, clock_ok: bool,
            out: *mut u8, out_len: usize) -> HubPacketLines;
        pub fn hub_queue(trace: *const u8, trace_len: usize, at: u64, clock_ok: bool,
            packets: *const u8, packets_len: usize, out: *mut u8, out_len: usize) -> HubQueue;
        pub fn hub_covers(earlier: *const u8, earlier_len: usize, later: *const u8, later_len: usize,
            standard: bool) -> u32;
        pub fn hub_witness(earlier: *const u8, earlier_len: usize, later: *const u8, later_len: usize,
            standard: bool) -> HubWitness;
    }
}

/// FNV-1a, 32 bits. Refuses nothing.
#[inline]
pub fn fnv1a_hash(data: &[u8]) -> u32 {
    unsafe { raw::hub_fnv1a_hash(data.as_ptr(), data.len()) }
}

/// djb2, 32 bits. Refuses nothing.
#[inline]
pub fn djb2_hash(data: &[u8]) -> u32 {
    unsafe { raw::hub_djb2_hash(data.as_ptr(), data.len()) }
}

/// djb2 of what follows the first 32 bytes, 0 for up to 32 bytes. Refuses nothing.
#[inline]
pub fn suffix_hash(topic: &[u8]) -> u32 {
    unsafe { raw::hub_suffix_hash(topic.as_ptr(), topic.len()) }
}

/// FNV-1a and djb2 of a client id, 0 and 0 for an empty one. Refuses nothing.
#[inline]
pub fn client_hashes(client_id: &[u8]) -> HubClientHashes {
    unsafe { raw::hub_client_hashes(client_id.as_ptr(), client_id.len()) }
}

/// The payload hash, 32 zero bytes for no data. Refuses nothing.
#[inline]
pub fn compute_payload_hash(data: &[u8], out: &mut [u8; 32]) {
    unsafe { raw::hub_compute_payload_hash(data.as_ptr(), data.len(), out) }
}

/// Whether the bytes are UTF-8; U+0000 passes. Refuses nothing.
#[inline]
pub fn is_utf8(bytes: &[u8]) -> bool {
    unsafe { raw::hub_is_utf8(bytes.as_ptr(), bytes.len()) }
}

/// Whether the wildcards of a pattern are well placed; no for an empty one. Refuses nothing.
#[inline]
pub fn validate_mqtt_wildcard(pattern: &[u8]) -> bool {
    unsafe { raw::hub_validate_mqtt_wildcard(pattern.as_ptr(), pattern.len()) }
}

/// 0 for a pattern that `add_rule` takes, 9 or, where it is not UTF-8, 36 for one that it refuses.
#[inline]
pub fn pattern_refusal(pattern: &[u8]) -> u32 {
    unsafe { raw::hub_pattern_refusal(pattern.as_ptr(), pattern.len()) }
}

/// The port's matching, as the Rust does it, invalid patterns included. Refuses nothing.
#[inline]
pub fn topic_matches(topic: &[u8], pattern: &[u8]) -> bool {
    unsafe { raw::hub_topic_matches(topic.as_ptr(), topic.len(), pattern.as_ptr(), pattern.len()) }
}

/// MQTT 3.1.1 matching, section 4.7 with its exception for dollar names (4.7.2): 0 no, 1 yes. Refuses an empty name and a
/// pattern that `add_rule` refuses, with 9.
#[inline]
pub fn standard_matches(name: &[u8], pattern: &[u8]) -> u32 {
    unsafe { raw::hub_standard_matches(name.as_ptr(), name.len(), pattern.as_ptr(), pattern.len()) }
}

/// Whether a filter is exactly `#`, `+` or `+/#`. Refuses nothing.
#[inline]
pub fn is_broad_wildcard_subscribe(topic: &[u8]) -> bool {
    unsafe { raw::hub_is_broad_wildcard_subscribe(topic.as_ptr(), topic.len()) }
}

/// Whether a topic begins with a dollar sign. Refuses nothing.
#[inline]
pub fn starts_with_dollar(topic: &[u8]) -> bool {
    unsafe { raw::hub_starts_with_dollar(topic.as_ptr(), topic.len()) }
}

/// Whether a topic holds a zero byte, `+` or `#`. Refuses nothing.
#[inline]
pub fn contains_invalid_publish_char(topic: &[u8]) -> bool {
    unsafe { raw::hub_contains_invalid_publish_char(topic.as_ptr(), topic.len()) }
}

/// A whole trace into the front of `out`. Refuses a text with the numbers of its `end=` line: 9, 21 to 27, 36; and an
/// `out` that is too short with 28, line 0 and nothing written.
#[inline]
pub fn trace(text: &[u8], out: &mut [u8]) -> HubTrace {
    unsafe { raw::hub_trace(text.as_ptr(), text.len(), out.as_mut_ptr(), out.len()) }
}

/// What `trace` hands back where `out` has room for the whole answer; its length is the room that it needs.
#[inline]
pub fn trace_length(text: &[u8]) -> HubTrace {
    unsafe { raw::hub_trace_length(text.as_ptr(), text.len()) }
}

/// `trace` of a monitor that chooses rules by MQTT 3.1.1. Refuses what `trace` does.
#[inline]
pub fn trace_standard(text: &[u8], out: &mut [u8]) -> HubTrace {
    unsafe { raw::hub_trace_standard(text.as_ptr(), text.len(), out.as_mut_ptr(), out.len()) }
}

/// What `trace_standard` hands back where `out` has room for the whole answer.
#[inline]
pub fn trace_standard_length(text: &[u8]) -> HubTrace {
    unsafe { raw::hub_trace_standard_length(text.as_ptr(), text.len()) }
}

/// The settings of a text, loaded and written back to the front of `out` in a form, 0 for the text's own. Refuses a text with
/// 9, 21 to 27, 29, 35 and 36 at its line; then a form that is not known with 29, or form 1 of a text that says standard
/// with 37, at its last line; and an `out` that is too short with 28. 29 and 28 have line 0. Nothing is then written.
#[inline]
pub fn settings(text: &[u8], form: u32, out: &mut [u8]) -> HubSettings {
    unsafe { raw::hub_settings(text.as_ptr(), text.len(), form, out.as_mut_ptr(), out.len()) }
}

/// Where the limit stands after a trace's messages, into the front of `out`; its number and line are those of `trace`.
/// Refuses an `out` that is too short with 28, line 0 and nothing written.
#[inline]
pub fn standing(text: &[u8], out: &mut [u8]) -> HubTrace {
    unsafe { raw::hub_standing(text.as_ptr(), text.len(), out.as_mut_ptr(), out.len()) }
}

/// `standing` of a monitor that chooses rules by MQTT 3.1.1. Refuses what `standing` does.
#[inline]
pub fn standing_standard(text: &[u8], out: &mut [u8]) -> HubTrace {
    unsafe { raw::hub_standing_standard(text.as_ptr(), text.len(), out.as_mut_ptr(), out.len()) }
}

/// The MQTT packet at a place, which may be any number. Refuses one of which bytes are missing with 31, one that breaks MQTT
/// 3.1.1 with 32, and one with a topic, filter or client id over 128 bytes with 33.
#[inline]
pub fn packet(bytes: &[u8], place: usize) -> HubPacket {
    unsafe { raw::hub_packet(bytes.as_ptr(), bytes.len(), place) }
}

/// The messages of the packet at a place, as lines of a trace with this time and verdict, into the front of `out`. Refuses
/// what `packet` does, and an `out` that is too short with 28. Nothing is then written.
#[inline]
pub fn packet_lines(bytes: &[u8], place: usize, at: u64, clock_ok: bool, out: &mut [u8]) -> HubPacketLines {
    unsafe { raw::hub_packet_lines(bytes.as_ptr(), bytes.len(), place, at, clock_ok, out.as_mut_ptr(), out.len()) }
}

/// A run of packets with one time and one verdict, inspected after a trace's messages; a record for each message into the
/// front of `out`. Refuses what `trace` does, but for its 28, with place 0. What `packet` refuses, and a packet whose
/// records do not fit, with 28, ends the run at that packet, and the records before it stay.
#[inline]
pub fn queue(trace: &[u8], at: u64, clock_ok: bool, packets: &[u8], out: &mut [u8]) -> HubQueue {
    let (text, text_len) = (trace.as_ptr(), trace.len());
    let (bytes, bytes_len) = (packets.as_ptr(), packets.len());
    unsafe { raw::hub_queue(text, text_len, at, clock_ok, bytes, bytes_len, out.as_mut_ptr(), out.len()) }
}

/// Whether the earlier pattern matches every name that the later one matches, by the port's matching or the standard's: 0
/// no, 1 yes. Refuses what `pattern_refusal` does, with its number, and the earlier pattern first.
#[inline]
pub fn covers(earlier: &[u8], later: &[u8], standard: bool) -> u32 {
    unsafe { raw::hub_covers(earlier.as_ptr(), earlier.len(), later.as_ptr(), later.len(), standard) }
}

/// A name that the later pattern matches and the earlier does not. Refuses what `covers` does.
#[inline]
pub fn witness(earlier: &[u8], later: &[u8], standard: bool) -> HubWitness {
    unsafe { raw::hub_witness(earlier.as_ptr(), earlier.len(), later.as_ptr(), later.len(), standard) }
}
