/* hub.h: the hub's message monitor for callers in C11 and C++11. Link target/staticlib/libhub.a, which `oracle/archive
 * hub` proves and writes; for hub_settings libboot.a, which `oracle/archive boot` writes; for hub_packet and
 * hub_packet_lines libjack.a, which `oracle/archive jack` writes; for hub_queue libwake.a, which `oracle/archive wake`
 * writes; and for hub_covers, hub_witness and the calls whose names begin with hub_standing, which are for a support desk
 * and not for the part, libdesk.a, which `oracle/archive desk` writes. Each is for x86-64 Linux (ELF, System V calls), as
 * position-independent code; besides the functions below it needs memcpy and memset. bin/header holds this file
 * and the archives to each other.
 *
 * The caller's duties, for every function here:
 * - a pointer is not null, also where the length beside it is 0;
 * - a length is at most PTRDIFF_MAX and lies within the object that its pointer points into;
 * - the bytes that are read are initialised, and nothing changes them during the call; `out` need not be initialised;
 * - what a function writes to overlaps no other argument, and nothing else reads or writes it during the call;
 * - there is room on the stack: 48 KiB for hub_queue and for a call whose name begins with hub_standing or hub_trace,
 *   16 KiB for hub_settings, 2 KiB for hub_covers and hub_witness, 1 KiB for any other (see below; until issue 39 it was
 *   96 KiB for hub_standing and 56 KiB for hub_queue).
 *
 * Each call then returns, allocates nothing, keeps no pointer and has no state: equal arguments give equal answers, on
 * any thread. A bool is 0 or 1.
 *
 * Stack, in bytes below the caller, by measurement (rattle-kit-13f, x86-64; `bin/measure stack` measures again): those
 * of the standing reach 41,384, hub_queue 40,344, those of traces 21,800, hub_settings 10,472, hub_witness 1,208,
 * hub_covers 936, hub_packet_lines 728, hub_packet 408, every other call at most 256, less not being told apart. Whole,
 * cut and damaged texts and packets were tried; by the disassembly no function calls itself, no frame grows with its
 * input, and the frames of a call add up to at most 250 bytes more. */
#ifndef HUB_H
#define HUB_H

#include <stdbool.h>
#include <stddef.h>
#include <stdint.h>

#ifdef __cplusplus
static_assert(sizeof(size_t) == 8, "libhub.a is for x86-64: a length has 64 bits");
extern "C" {
#else
_Static_assert(sizeof(size_t) == 8, "libhub.a is for x86-64: a length has 64 bits");
#endif

/* The longest trace, in bytes: a longer one is refused with 27. */
#define HUB_TRACE_LONGEST 65536

/* An `out` of so many bytes holds the answer to any trace, so hub_trace and hub_trace_standard never give 28 there
 * (proved). So does one of 12 bytes for each byte of the text, if that is at least 109 (proved too). Either spares them
 * the pass that counts, which costs 0.7 to 1.0 times as much again (docs/MEASURED.md). */
#define HUB_TRACE_ENOUGH 786432

/* No settings text that loads is longer, in either form, so an `out` of so many bytes holds what hub_settings writes
 * (proved). */
#define HUB_SETTINGS_LONGEST 5547

/* The seven lines of a message are no longer (proved). */
#define HUB_MESSAGE_LONGEST 843

/* Nor is a message's record, from its line `n=` on. So an `out` of so many bytes for each message of the packets, or of
 * 264 bytes for each byte of them, never meets 28 in hub_queue (both proved). */
#define HUB_RECORD_LONGEST 528

/* The two hashes that tell clients apart. */
struct HubClientHashes {
    uint32_t hash;  /* FNV-1a */
    uint32_t hash2; /* djb2 */
};

/* How a trace ended. */
struct HubTrace {
    uint32_t number; /* 0 for a whole trace, else the number of its refusal, as in the answer's `end=` line; or 28,
                        which has no such line, since nothing is written */
    uint64_t line;   /* the last line of a whole trace, else the refused one; 0 with 27 and 28 */
    size_t length;   /* how many bytes the answer has; 0 with 28 */
};

/* What a packet is. */
struct HubPacket {
    uint32_t number; /* 0, or the number of the refusal */
    size_t length;   /* how many bytes the whole packet has, from its first one; 0 with any refusal */
    size_t messages; /* how many messages it gives; 0 with any refusal */
};

/* How a packet's messages were written as lines. */
struct HubPacketLines {
    uint32_t number; /* 0, or the number of the refusal */
    uint64_t line;   /* always 0: no line was read */
    size_t length;   /* how many bytes were written; 0 with any refusal */
};

/* How a run of packets ended. */
struct HubQueue {
    uint32_t number;    /* 0 for a whole run; else the number that ended it, or that refused the trace */
    size_t place;       /* where the packet begins at which it ended, or the end of the packets; 0 for a refused trace */
    uint64_t done;      /* how many messages were inspected, all of them of packets before that place */
    size_t length;      /* how many bytes their records have */
    uint64_t inspected; /* the monitor's count of messages afterwards, those of the trace among them */
    uint64_t total;     /* its count of alerts, likewise */
};

/* A name that only the later of two patterns matches. */
struct HubWitness {
    uint32_t number;   /* 0, or the number that refuses a pattern */
    size_t length;     /* how many bytes the name has; 0 for none, and with any refusal */
    uint8_t name[128]; /* the name, and zeros behind it */
};

/* How settings were written back. */
struct HubSettings {
    uint32_t number; /* 0, or the number of the refusal */
    uint64_t line;   /* the last line of a text that loads, with 37 too; else the refused one; 0 with 27, 28, and 29 for
                        the form that was asked for */
    size_t length;   /* how many bytes were written; 0 with any refusal */
};

/* FNV-1a of the data, 32 bits. Refuses nothing. */
uint32_t hub_fnv1a_hash(const uint8_t *data, size_t data_len);

/* djb2 of the data, 32 bits. Refuses nothing. */
uint32_t hub_djb2_hash(const uint8_t *data, size_t data_len);

/* djb2 of the bytes after the first 32; 0 where there are none. Refuses nothing. */
uint32_t hub_suffix_hash(const uint8_t *topic, size_t topic_len);

/* Both hashes of a client id; 0 and 0 for an empty one. Refuses nothing. */
struct HubClientHashes hub_client_hashes(const uint8_t *client_id, size_t client_id_len);

/* Writes the payload hash to the 32 bytes at `out`; all zero for no data. Refuses nothing. */
void hub_compute_payload_hash(const uint8_t *data, size_t data_len, uint8_t out[32]);

/* Whether the bytes are UTF-8 as MQTT 3.1.1 section 1.5.3 wants it: well formed, no number with more bytes than it
 * needs, no surrogate, nothing above U+10FFFF, no character cut off. U+0000 passes: that a string of MQTT has no zero
 * byte is for the caller to test. Refuses nothing. */
bool hub_is_utf8(const uint8_t *bytes, size_t bytes_len);

/* Whether each `#` is last and alone in its level and each `+` alone in its level; false for an empty pattern.
 * Refuses nothing. */
bool hub_validate_mqtt_wildcard(const uint8_t *pattern, size_t pattern_len);

/* 0 for a pattern that a rule may have; else the number that refuses it, in this order: 9 if it has not 1 to 64 bytes,
 * 9 for a zero byte, 36 if it is not UTF-8, 9 for more than three `+`, 9 for a wildcard out of place. */
uint32_t hub_pattern_refusal(const uint8_t *pattern, size_t pattern_len);

/* Whether the pattern matches the topic, as the Rust original does it, also for patterns that no rule may have.
 * Refuses nothing. */
bool hub_topic_matches(const uint8_t *topic, size_t topic_len, const uint8_t *pattern, size_t pattern_len);

/* The same by MQTT 3.1.1 section 4.7: `+` takes an empty last level too, and a pattern that begins with a wildcard
 * takes no name that begins with a dollar sign (4.7.2). 0 no, 1 yes. Refuses an empty name and a pattern that no rule
 * may have, whatever its own number, each with 9; other names that the standard forbids, as one with a zero byte or one
 * that is not UTF-8, are matched byte by byte. */
uint32_t hub_standard_matches(const uint8_t *name, size_t name_len, const uint8_t *pattern, size_t pattern_len);

/* Whether a filter is exactly `#`, `+` or `+/#`. Refuses nothing. */
bool hub_is_broad_wildcard_subscribe(const uint8_t *topic, size_t topic_len);

/* Whether a topic begins with a dollar sign. Refuses nothing. */
bool hub_starts_with_dollar(const uint8_t *topic, size_t topic_len);

/* Whether a topic holds a zero byte, `+` or `#`. Refuses nothing. */
bool hub_contains_invalid_publish_char(const uint8_t *topic, size_t topic_len);

/* Reads a whole trace, inspects its messages by a monitor whose rules match as hub_topic_matches does, and writes the
 * answer to the front of `out`: the lines of every message up to the end or the refused line, then the four closing
 * lines. The rest of `out` is left as it was. Refuses the text with 9, 21 to 27 and 36; whatever the text, refuses an
 * `out` that the answer does not fit into with 28, line 0, length 0 and nothing written. */
struct HubTrace hub_trace(const uint8_t *text, size_t text_len, uint8_t *out, size_t out_len);

/* What hub_trace gives for this text where `out` has room for the whole answer: `length` is the room that it needs.
 * Never 28. */
struct HubTrace hub_trace_length(const uint8_t *text, size_t text_len);

/* The same two with a monitor whose rules match as hub_standard_matches does, wildcards in a Subscribe's or
 * Unsubscribe's topic being taken as text. The text has the same lines and is refused alike; only which rule is the
 * first to match can differ, and what follows from that (docs/DIFFERENCES.md). */
struct HubTrace hub_trace_standard(const uint8_t *text, size_t text_len, uint8_t *out, size_t out_len);
struct HubTrace hub_trace_standard_length(const uint8_t *text, size_t text_len);

/* Loads a settings text to a fresh monitor and writes that monitor's settings to the front of `out`: in the form that is
 * asked for, 1 or 2, or 0 for the text's own. The rest of `out` is left as it was. A text that loads is written back byte
 * for byte in its own form, so there an `out` as long as the text is enough; and one that was turned into the other form
 * turns back into the same bytes (proved). Refuses the text with 9, 21 to 27, 29, 35 and 36, at its line; after that a
 * `form` that is not known with 29 and line 0, or form 1 of a text that says match=standard, for which form 1 has no
 * word, with 37 at its last line; and then an `out` that the settings do not fit into with 28 and line 0. With any
 * refusal the length is 0 and nothing is written. */
struct HubSettings hub_settings(const uint8_t *text, size_t text_len, uint32_t form, uint8_t *out, size_t out_len);

/* Looks at the MQTT 3.1.1 packet at a place of the bytes, whole, and says how long it is and how many messages it gives:
 * one for each filter of a SUBSCRIBE or UNSUBSCRIBE, else one. What stands behind the packet is not looked at. Any place
 * will do, up to SIZE_MAX. Refuses, in this order: 32 a length field with a fourth continuation bit, 31 a packet of which
 * bytes are missing, 32 any other breach of chapters 2 and 3 of the standard in a CONNECT, PUBLISH, SUBSCRIBE or
 * UNSUBSCRIBE, or a reserved type, 33 a topic, filter or client id of over 128 bytes (docs/PACKETS.md). */
struct HubPacket hub_packet(const uint8_t *bytes, size_t bytes_len, size_t place);

/* Writes the messages of that packet as the lines of a trace, seven for each, to the front of `out`, each with the time
 * `at` in microseconds and the clock's verdict. The rest of `out` is left as it was. Behind the opening of a trace they are
 * read back as the same messages (proved). Refuses what hub_packet refuses, then an `out` that the lines do not fit into
 * with 28; with any refusal nothing is written. A message has at most HUB_MESSAGE_LONGEST bytes of lines (proved). */
struct HubPacketLines hub_packet_lines(const uint8_t *bytes, size_t bytes_len, size_t place, uint64_t at, bool clock_ok,
                                       uint8_t *out, size_t out_len);

/* A run of packets in one call, as a network task has them when it wakes: inspects the messages of the packets, in their
 * order, on the monitor that a trace's messages leave, whose rules match as hub_topic_matches does. All have the time `at`
 * in microseconds and the clock's verdict. The records go to the front of `out`: for each message the lines that hub_trace
 * writes for it, but that `n=` counts from 1 in each call. The rest of `out` is left as it was. Records and counts are
 * those of inspecting the messages singly (proved).
 *   The first packet that is refused ends the run: with the number that hub_packet has for it, or else with 28, where the
 * records of all its messages do not fit behind those before. Nothing of that packet is inspected or written; the messages
 * before it are done, and their records stay. Call again with the packets from `place` on, after 28 with more room, after
 * 31 with the bytes that were missing, and with the messages that were done behind the trace, as hub_packet_lines writes
 * them: it goes on where the run ended. No state is kept between calls, and the trace stands for it.
 *   Refuses the trace, before anything of the packets is looked at, with 9, 21 to 27 and 36: the counts are then those of
 * the messages before its bad line, place, done and length are 0, and nothing is written. The trace's own answer is not
 * written here. An opening alone is a whole trace. */
struct HubQueue hub_queue(const uint8_t *trace, size_t trace_len, uint64_t at, bool clock_ok, const uint8_t *packets,
                          size_t packets_len, uint8_t *out, size_t out_len);

/* Whether a rule with the earlier pattern leaves nothing to a later rule with the other one: whether it matches every name
 * that the later one matches, names being 1 to 128 bytes without zero, `+` or `#`. Both match as hub_topic_matches does, or
 * with `standard` as hub_standard_matches does. 1 yes, 0 no (proved, both ways). Refuses a pattern that no rule may have
 * with its number, 9 or 36, the earlier one's first. */
uint32_t hub_covers(const uint8_t *earlier, size_t earlier_len, const uint8_t *later, size_t later_len, bool standard);

/* A name by which it is seen that the earlier pattern does not: the later one matches it and the earlier one does not
 * (proved). Its length is 0 where there is none, just where hub_covers says 1, and where a pattern is refused, as there. */
struct HubWitness hub_witness(const uint8_t *earlier, size_t earlier_len, const uint8_t *later, size_t later_len,
                              bool standard);

/* Where the limit stands after a whole trace: the lines of docs/STANDING.md, which follow the answer of hub_trace, or of
 * hub_trace_standard, where they are asked for. They go to the front of `out`, and the rest of it is left as it was.
 * `number` and `line` say how the trace ended, as there; `length` is how many bytes these lines have. An `out` that they
 * do not fit into is refused with 28, line 0, length 0 and nothing written; one of HUB_TRACE_ENOUGH bytes always does
 * (proved). Each message's topic is looked for in the rest of the text, so the time grows with the square of the
 * messages: a tenth of a second for a text full of them (docs/MEASURED.md). */
struct HubTrace hub_standing(const uint8_t *text, size_t text_len, uint8_t *out, size_t out_len);
struct HubTrace hub_standing_standard(const uint8_t *text, size_t text_len, uint8_t *out, size_t out_len);

#ifdef __cplusplus
}
#endif

#endif
