/* header: a caller in C, or compiled as C++, that has only include/hub.h and the archive. It calls every export and
 * holds the answers to known ones: document 01's P1 to P8 and its trace, answers recorded from the Rust original
 * (crates/replay/stdin), and packets written by MQTT 3.1.1. The last line is the tally. bin/header compiles and runs
 * it. */
#include "hub.h"

#include <stdio.h>
#include <string.h>

static int passed, failed;

static void holds(const char *what, bool so) {
    if (so) {
        passed++;
    } else {
        failed++;
        printf("header: %s\n", what);
    }
}

/* A string as pointer and length, without its closing zero. */
#define BYTES(text) (const uint8_t *)(text), sizeof(text) - 1

/* One test for each side of document 01's matching corners: what the port and the standard matcher answer. */
#define MATCH(topic, pattern, port, standard)                                                                         \
    holds("port: " pattern " on " topic, hub_topic_matches(BYTES(topic), BYTES(pattern)) == (port));                  \
    holds("standard: " pattern " on " topic, hub_standard_matches(BYTES(topic), BYTES(pattern)) == (standard))

static void matching(void) {
    MATCH("sport", "sport/#", true, 1);        /* P1 */
    MATCH("sport/", "sport/+", false, 1);      /* P2 */
    MATCH("/finance", "+/+", true, 1);         /* P3 */
    MATCH("sport/a", "sport/+/#", true, 1);    /* P4 */
    MATCH("sport/a/b", "sport/+", false, 0);   /* P5 */
    MATCH("$SYS", "#", true, 0);               /* 4.7.2 */
    MATCH("$SYS/x", "+/x", true, 0);           /* likewise */
    MATCH("$SYS/x", "$SYS/+", true, 1);        /* the pattern does not begin with a wildcard */
    MATCH("a/$x", "+/$x", true, 1);            /* nor this name with a dollar sign */
    MATCH("a", "a+", false, 9);                /* outside the standard matcher's domain */
    MATCH("", "#", true, 9);                   /* likewise */
    holds("a name with a zero byte is matched", hub_standard_matches(BYTES("a\0"), BYTES("+")) == 1);

    holds("P6, a+/b", hub_pattern_refusal(BYTES("a+/b")) == 9 && !hub_validate_mqtt_wildcard(BYTES("a+/b")));
    holds("P6, a/#/b", hub_pattern_refusal(BYTES("a/#/b")) == 9 && !hub_validate_mqtt_wildcard(BYTES("a/#/b")));
    holds("P7, +/+/+", hub_pattern_refusal(BYTES("+/+/+")) == 0 && hub_validate_mqtt_wildcard(BYTES("+/+/+")));
    holds("P7, four +", hub_pattern_refusal(BYTES("+/+/+/+")) == 9 && hub_validate_mqtt_wildcard(BYTES("+/+/+/+")));
    holds("an empty pattern", hub_pattern_refusal(BYTES("")) == 9 && !hub_validate_mqtt_wildcard(BYTES("")));

    holds("MQTT's own example of UTF-8", hub_is_utf8(BYTES("A\xf0\xaa\x9b\x94")));
    holds("no bytes are UTF-8", hub_is_utf8(BYTES("")));
    holds("so is a zero byte", hub_is_utf8(BYTES("\0")));
    holds("an overlong zero is not", !hub_is_utf8(BYTES("\xc0\x80")));
    holds("nor is a surrogate", !hub_is_utf8(BYTES("\xed\xa0\x80")));
    holds("nor a character cut off", !hub_is_utf8(BYTES("a\xc3")));
    holds("a pattern of two-byte characters", hub_pattern_refusal(BYTES("S\xc3\xbc" "d/+")) == 0);
    holds("a pattern in Latin-1", hub_pattern_refusal(BYTES("S\xfc" "d/+")) == 36);
    holds("36 after the zero byte", hub_pattern_refusal(BYTES("a\0\xff")) == 9);
    holds("36 before the count of +", hub_pattern_refusal(BYTES("+/+/+/+/\xff")) == 36);
    holds("outside the standard matcher's domain", hub_standard_matches(BYTES("a"), BYTES("\xff")) == 9);

    holds("+/# is broad", hub_is_broad_wildcard_subscribe(BYTES("+/#")));
    holds("a/# is not broad", !hub_is_broad_wildcard_subscribe(BYTES("a/#")));
    holds("$SYS begins with a dollar sign", hub_starts_with_dollar(BYTES("$SYS")));
    holds("a$ does not", !hub_starts_with_dollar(BYTES("a$")));
    holds("a zero byte is not for a Publish", hub_contains_invalid_publish_char(BYTES("a\0b")));
    holds("a dollar sign is", !hub_contains_invalid_publish_char(BYTES("$a")));
}

static void hashing(void) {
    static const uint8_t hash_of_a[32] = {0x2c, 0x29, 0x0c, 0xe4, 0xbc, 0x4c, 0x66, 0xe8, 0x03, 0xf1, 0x8b,
                                          0xd2, 0xcf, 0x85, 0x0f, 0x99, 0xa9, 0x6e, 0x7f, 0x8a, 0x96, 0xc4,
                                          0x93, 0xa6, 0xe5, 0x2d, 0x0c, 0xe7, 0xf9, 0x37, 0xa0, 0x58};
    static const uint8_t zeros[32] = {0};
    uint8_t out[34];
    struct HubClientHashes client = hub_client_hashes(BYTES("a"));
    struct HubClientHashes nobody = hub_client_hashes(BYTES(""));
    holds("P8, FNV-1a", hub_fnv1a_hash(BYTES("a")) == 0xe40c292cu);
    holds("P8, djb2", hub_djb2_hash(BYTES("a")) == 177670);
    holds("the suffix hash of 33 bytes", hub_suffix_hash(BYTES("0123456789abcdef0123456789abcdefa")) == 177670);
    holds("the suffix hash of 32 bytes", hub_suffix_hash(BYTES("0123456789abcdef0123456789abcdef")) == 0);
    holds("the hashes of a client id", client.hash == 0xe40c292cu && client.hash2 == 177670);
    holds("the hashes of no client id", nobody.hash == 0 && nobody.hash2 == 0);

    memset(out, 0xa5, sizeof out);
    hub_compute_payload_hash(BYTES("a"), out + 1);
    holds("the payload hash", memcmp(out + 1, hash_of_a, 32) == 0);
    holds("the bytes beside it", out[0] == 0xa5 && out[33] == 0xa5);
    hub_compute_payload_hash(BYTES(""), out + 1);
    holds("the payload hash of no data", memcmp(out + 1, zeros, 32) == 0);
}

/* Document 01's example of a trace, and its answer. */
#define MESSAGE(at) "at=" at "\nclock=ok\ntype=3\nqos=0\ntopic=6d2f61\nsize=0\npayload=\n"
static const char text[] = "default=allow\nrules=1\npattern=6d2f2b\naction=allow\nqos=any\nrate=1\n" MESSAGE("1000000")
    MESSAGE("1500000");
static const char answer[] = "n=1\nallowed=1\nalerts=0\nn=2\nallowed=0\nalerts=1\nid=1\nkind=5\nseverity=2\n"
                             "hash=0000000000000000000000000000000000000000000000000000000000000000\n"
                             "end=0\nline=20\ninspected=2\ntotal=1\n";
static const char refused[] = "end=26\nline=1\ninspected=0\ntotal=0\n";
static uint8_t room[HUB_TRACE_ENOUGH];
static uint8_t longer[HUB_TRACE_LONGEST + 1];

static bool ended(struct HubTrace end, uint32_t number, uint64_t line, size_t length) {
    return end.number == number && end.line == line && end.length == length;
}

static bool written(struct HubSettings end, uint32_t number, uint64_t line, size_t length) {
    return end.number == number && end.line == line && end.length == length;
}

/* Whether all of the room from a place on is as it was painted. */
static bool untouched(size_t from) {
    while (from < sizeof room && room[from] == 0xa5)
        from++;
    return from == sizeof room;
}

typedef struct HubTrace TraceCall(const uint8_t *, size_t, uint8_t *, size_t);
typedef struct HubTrace LengthCall(const uint8_t *, size_t);

/* A matcher's two calls. Both matchers answer all of these alike. */
static void tracing(TraceCall *traced, LengthCall *counted) {
    const size_t length = sizeof answer - 1;
    memset(room, 0xa5, sizeof room);
    holds("the length of a trace's answer", ended(counted(BYTES(text)), 0, 20, length));
    holds("28 where the room is a byte too short", ended(traced(BYTES(text), room, length - 1), 28, 0, 0));
    holds("28 where there is no room", ended(traced(BYTES(text), room, 0), 28, 0, 0));
    holds("28 writes nothing", untouched(0));
    holds("how a trace ends", ended(traced(BYTES(text), room, length), 0, 20, length));
    holds("its answer", memcmp(room, answer, length) == 0);
    holds("the room behind it", untouched(length));
    memset(room, 0xa5, sizeof room);
    holds("the same with room enough for any", ended(traced(BYTES(text), room, sizeof room), 0, 20, length));
    holds("its answer", memcmp(room, answer, length) == 0 && untouched(length));

    holds("the length of a refused answer", ended(counted(BYTES("")), 26, 1, sizeof refused - 1));
    holds("an empty text", ended(traced(BYTES(""), room, sizeof room), 26, 1, sizeof refused - 1));
    holds("its answer", memcmp(room, refused, sizeof refused - 1) == 0);
    holds("27 is for texts over the longest",
          traced(longer, sizeof longer, room, sizeof room).number == 27 &&
              traced(longer, sizeof longer - 1, room, sizeof room).number == 26);
}

/* A Subscribe to `$SYS/x` where the one rule allows `#`: the port's rule takes it, the standard's does not. */
static void choosing(void) {
    static const char dollar[] = "default=block\nrules=1\npattern=23\naction=allow\nqos=any\nrate=0\n"
                                 "at=0\nclock=ok\ntype=8\nqos=0\ntopic=245359532f78\nsize=0\npayload=\n";
    static const char taken[] = "n=1\nallowed=1\nalerts=0\nend=0\nline=13\ninspected=1\ntotal=0\n";
    static const char denied[] = "n=1\nallowed=0\nalerts=1\nid=1\nkind=10\nseverity=2\n"
                                 "hash=0000000000000000000000000000000000000000000000000000000000000000\n"
                                 "end=0\nline=13\ninspected=1\ntotal=1\n";
    holds("the port lets it pass", ended(hub_trace(BYTES(dollar), room, sizeof room), 0, 13, sizeof taken - 1));
    holds("its answer", memcmp(room, taken, sizeof taken - 1) == 0);
    holds("the standard denies it", ended(hub_trace_standard(BYTES(dollar), room, sizeof room), 0, 13, sizeof denied - 1));
    holds("its answer", memcmp(room, denied, sizeof denied - 1) == 0);
    holds("their lengths", hub_trace_length(BYTES(dollar)).length == sizeof taken - 1 &&
                               hub_trace_standard_length(BYTES(dollar)).length == sizeof denied - 1);
}

/* Settings that come back byte for byte, or are refused with nothing written. */
static void saving(void) {
    static const char saved[] = "form=1\ndefault=block\nthreshold=5\nwindow=60000000\nrules=1\n"
                                "pattern=6d2f2b\naction=allow\nqos=min1\nrate=1\n";
    const size_t length = sizeof saved - 1;
    memset(room, 0xa5, sizeof room);
    holds("28 where the room for settings is a byte too short", written(hub_settings(BYTES(saved), 0, room, length - 1), 28, 0, 0));
    holds("29 for a form that is not known", written(hub_settings(BYTES(saved), 3, room, sizeof room), 29, 0, 0));
    holds("29 for a text in one", written(hub_settings(BYTES("form=3\n"), 1, room, sizeof room), 29, 1, 0));
    holds("26 where the text stops short", written(hub_settings(BYTES(saved) - 1, 0, room, sizeof room), 26, 9, 0));
    holds("27 for a text over the longest", written(hub_settings(longer, sizeof longer, 0, room, sizeof room), 27, 0, 0));
    holds("each writes nothing", untouched(0));
    holds("settings are written", written(hub_settings(BYTES(saved), 0, room, length), 0, 9, length));
    holds("as they were", memcmp(room, saved, length) == 0 && untouched(length));
    memset(room, 0xa5, sizeof room);
    holds("in the form asked for", written(hub_settings(BYTES(saved), 1, room, sizeof room), 0, 9, length));
    holds("as they were", memcmp(room, saved, length) == 0 && untouched(length));
}

/* Settings in the other form and home again, byte for byte; and those that form 1 has no word for. */
static void converting(void) {
    static const char one[] = "form=1\ndefault=allow\nthreshold=5\nwindow=60000000\nrules=0\n";
    static const char two[] = "form=2\ndefault=allow\nmatch=port\nthreshold=5\nwindow=60000000\nrules=0\n";
    static const char other[] = "form=2\ndefault=allow\nmatch=standard\nthreshold=5\nwindow=60000000\nrules=0\n";
    memset(room, 0xa5, sizeof room);
    holds("37 for the standard in form 1", written(hub_settings(BYTES(other), 1, room, sizeof room), 37, 6, 0));
    holds("37 before 28", written(hub_settings(BYTES(other), 1, room, 0), 37, 6, 0));
    holds("28 where form 2 is too long", written(hub_settings(BYTES(one), 2, room, sizeof one - 1), 28, 0, 0));
    holds("each writes nothing", untouched(0));
    holds("form 1 in form 2", written(hub_settings(BYTES(one), 2, room, sizeof room), 0, 5, sizeof two - 1));
    holds("says port", memcmp(room, two, sizeof two - 1) == 0 && untouched(sizeof two - 1));
    memset(room, 0xa5, sizeof room);
    holds("form 2 in form 1", written(hub_settings(BYTES(two), 1, room, sizeof one - 1), 0, 6, sizeof one - 1));
    holds("is what it was", memcmp(room, one, sizeof one - 1) == 0 && untouched(sizeof one - 1));
    memset(room, 0xa5, sizeof room);
    holds("the standard in its own form", written(hub_settings(BYTES(other), 0, room, sizeof room), 0, 6, sizeof other - 1));
    holds("is itself", memcmp(room, other, sizeof other - 1) == 0 && untouched(sizeof other - 1));
}

/* Where the limit stands after document 01's trace: one place is taken, and the topic passes again half a second later. */
static void standing(TraceCall *stands) {
    static const char lines[] = "last=1500000\ntaken=1\nplace=6d2f61\ntext=m/a\nnew=0\nwait=0.000000\n"
                                "topic=6d2f61\ntext=m/a\nrate=1\ntokens=0\nkind=5\nfrom=2000000\nwait=0.500000\n";
    static const char fresh[] = "last=0\ntaken=0\nnew=0\nwait=0.000000\n";
    const size_t length = sizeof lines - 1;
    memset(room, 0xa5, sizeof room);
    holds("28 where the room for the standing is a byte too short", ended(stands(BYTES(text), room, length - 1), 28, 0, 0));
    holds("28 writes nothing of it", untouched(0));
    holds("how that trace ends", ended(stands(BYTES(text), room, length), 0, 20, length));
    holds("where the limit stands", memcmp(room, lines, length) == 0 && untouched(length));
    holds("an empty text leaves a fresh hub", ended(stands(BYTES(""), room, sizeof room), 26, 1, sizeof fresh - 1));
    holds("where its limit stands", memcmp(room, fresh, sizeof fresh - 1) == 0);
}

/* A CONNECT of the client mount-7, a PUBLISH of QoS 1, a SUBSCRIBE of two filters, a PINGREQ; and all four in a row. */
#define CONNECT "\x10\x13\0\4MQTT\4\2\0\x3c\0\7mount-7"
#define PUBLISH "\x32\x0b\0\3m/a\0\1west"
#define SUBSCRIBE "\x82\x0c\0\2\0\3m/#\1\0\1+\2"
#define PINGREQ "\xc0\0"
static const char packets[] = CONNECT PUBLISH SUBSCRIBE PINGREQ;
enum { PUBLISH_AT = 21, SUBSCRIBE_AT = 34, PINGREQ_AT = 48, PACKETS_END = 50 };

static bool found(struct HubPacket packet, uint32_t number, size_t length, size_t messages) {
    return packet.number == number && packet.length == length && packet.messages == messages;
}

static bool lined(struct HubPacketLines end, uint32_t number, size_t length) {
    return end.number == number && end.line == 0 && end.length == length;
}

/* Packets alone, at a place among others, and those that are refused. */
static void reading(void) {
    static uint8_t wide[5 + 129];
    holds("a CONNECT", found(hub_packet(BYTES(CONNECT), 0), 0, 21, 1));
    holds("a PUBLISH", found(hub_packet(BYTES(PUBLISH), 0), 0, 13, 1));
    holds("a SUBSCRIBE of two filters", found(hub_packet(BYTES(SUBSCRIBE), 0), 0, 14, 2));
    holds("a PINGREQ", found(hub_packet(BYTES(PINGREQ), 0), 0, 2, 1));
    holds("the first of four", found(hub_packet(BYTES(packets), 0), 0, 21, 1));
    holds("the second", found(hub_packet(BYTES(packets), PUBLISH_AT), 0, 13, 1));
    holds("the third", found(hub_packet(BYTES(packets), SUBSCRIBE_AT), 0, 14, 2));
    holds("the last", found(hub_packet(BYTES(packets), PINGREQ_AT), 0, 2, 1));

    holds("31 at the end", found(hub_packet(BYTES(packets), PACKETS_END), 31, 0, 0));
    holds("31 past it", found(hub_packet(BYTES(packets), PACKETS_END + 1), 31, 0, 0));
    holds("31 at the largest place", found(hub_packet(BYTES(packets), SIZE_MAX), 31, 0, 0));
    holds("31 of no bytes", found(hub_packet(BYTES(""), 0), 31, 0, 0));
    holds("31 where the last byte is missing", found(hub_packet(BYTES(PUBLISH) - 1, 0), 31, 0, 0));
    holds("31 within a length field", found(hub_packet(BYTES("x\xff\xff\xff"), 0), 31, 0, 0));
    holds("32 for its fourth continuation bit", found(hub_packet(BYTES("x\xff\xff\xff\xff"), 0), 32, 0, 0));
    holds("32 for a packet of type 0", found(hub_packet(BYTES("\0\0"), 0), 32, 0, 0));

    memset(wide, 'a', sizeof wide);
    memcpy(wide, "\x30\x83\1\0\x81", 5);
    holds("33 for a topic of 129 bytes", found(hub_packet(wide, sizeof wide, 0), 33, 0, 0));
    memcpy(wide, "\x30\x82\1\0\x80", 5);
    holds("a topic of 128 bytes", found(hub_packet(wide, sizeof wide, 0), 0, 133, 1));
}

/* A packet's messages as lines of a trace, or refused with nothing written. */
static void lining(void) {
    static const char one[] = "at=1500000\nclock=ok\ntype=3\nqos=1\ntopic=6d2f61\nsize=4\npayload=77657374\n";
    static const char two[] = "at=18446744073709551615\nclock=bad\ntype=8\nqos=1\ntopic=6d2f23\nsize=0\npayload=\n"
                              "at=18446744073709551615\nclock=bad\ntype=8\nqos=2\ntopic=2b\nsize=0\npayload=\n";
    const size_t length = sizeof one - 1;
    memset(room, 0xa5, sizeof room);
    holds("28 where the room for lines is a byte too short",
          lined(hub_packet_lines(BYTES(PUBLISH), 0, 1500000, true, room, length - 1), 28, 0));
    holds("28 where there is none", lined(hub_packet_lines(BYTES(PUBLISH), 0, 1500000, true, room, 0), 28, 0));
    holds("31 at the largest place",
          lined(hub_packet_lines(BYTES(packets), SIZE_MAX, 0, true, room, sizeof room), 31, 0));
    holds("32 for a fourth continuation bit",
          lined(hub_packet_lines(BYTES("x\xff\xff\xff\xff"), 0, 0, true, room, sizeof room), 32, 0));
    holds("32 before 28", lined(hub_packet_lines(BYTES("x\xff\xff\xff\xff"), 0, 0, true, room, 0), 32, 0));
    holds("each writes nothing", untouched(0));
    holds("the lines of a PUBLISH", lined(hub_packet_lines(BYTES(PUBLISH), 0, 1500000, true, room, length), 0, length));
    holds("as a trace has them", memcmp(room, one, length) == 0 && untouched(length));
    memset(room, 0xa5, sizeof room);
    holds("those of two filters, among other packets",
          lined(hub_packet_lines(BYTES(packets), SUBSCRIBE_AT, UINT64_MAX, false, room, sizeof room), 0,
                sizeof two - 1));
    holds("as a trace has them", memcmp(room, two, sizeof two - 1) == 0 && untouched(sizeof two - 1));
}

/* A trace with one message of `m/a`, and the records of the four packets above, half a second behind it: the PUBLISH is
 * faster than its rate, and `+` is a broad filter. RECORDS_1 to RECORDS_4 is how far those of each packet reach. */
#define OPENING "default=allow\nrules=1\npattern=6d2f2b\naction=allow\nqos=any\nrate=1\n"
#define PASSED(n) "n=" n "\nallowed=1\nalerts=0\n"
#define ALERTED(n, allowed, id, kind)                                                                                 \
    "n=" n "\nallowed=" allowed "\nalerts=1\nid=" id "\nkind=" kind "\nseverity=2\n"                                  \
    "hash=0000000000000000000000000000000000000000000000000000000000000000\n"
static const char once[] = OPENING MESSAGE("1000000");
static const char records[] = PASSED("1") ALERTED("2", "0", "1", "5") PASSED("3") ALERTED("4", "1", "2", "11") PASSED("5");
enum { RECORDS_1 = 23, RECORDS_2 = 139, RECORDS_3 = 279, RECORDS_4 = 302 };

/* The run of some packets behind that trace, into so much of the room. */
static struct HubQueue woken(const uint8_t *bytes, size_t bytes_len, size_t room_len) {
    memset(room, 0xa5, sizeof room);
    return hub_queue(BYTES(once), 1500000, true, bytes, bytes_len, room, room_len);
}

/* How it ended, with the records up to a length and the rest of the room as it was. */
static bool ran(struct HubQueue end, uint32_t number, size_t place, uint64_t done, size_t length) {
    return end.number == number && end.place == place && end.done == done && end.length == length &&
           memcmp(room, records, length) == 0 && untouched(length);
}

static bool counts(struct HubQueue end, uint64_t inspected, uint64_t total) {
    return end.inspected == inspected && end.total == total;
}

/* Runs that are whole: into any room that is enough, and of no packets. */
static void waking(void) {
    struct HubQueue end = woken(BYTES(packets), sizeof room);
    holds("a whole run", ran(end, 0, PACKETS_END, 5, RECORDS_4));
    holds("its counts", counts(end, 6, 2));
    holds("an exact fit", ran(woken(BYTES(packets), RECORDS_4), 0, PACKETS_END, 5, RECORDS_4));
    holds("room by the record", sizeof records - 1 == RECORDS_4 &&
                                    ran(woken(BYTES(packets), 5 * HUB_RECORD_LONGEST), 0, PACKETS_END, 5, RECORDS_4));
    end = woken(BYTES(""), 0);
    holds("a run of no packets", ran(end, 0, 0, 0, 0));
    holds("its counts", counts(end, 1, 0));
    end = hub_queue(BYTES("default=block\nrules=0\n"), UINT64_MAX, false, BYTES(PINGREQ), room, sizeof room);
    holds("a run behind an opening alone", end.number == 0 && end.place == 2 && end.done == 1 && counts(end, 1, 1));
}

/* Runs that end at a packet: what stands before it is done. */
static void waking_in_part(void) {
    static const char behind[] = PUBLISH "\0\0" PUBLISH;
    static uint8_t wide[13 + 5 + 129];
    struct HubQueue end = woken(BYTES(packets), RECORDS_4 - 1);
    holds("28 a byte short of the last packet's records", ran(end, 28, PINGREQ_AT, 4, RECORDS_3));
    holds("the counts without it", counts(end, 5, 2));
    end = woken(BYTES(packets), RECORDS_3 - 1);
    holds("28 a byte short of two filters' records writes neither", ran(end, 28, SUBSCRIBE_AT, 2, RECORDS_2));
    holds("and inspects neither", counts(end, 3, 1));
    holds("both where they fit", ran(woken(BYTES(packets), RECORDS_3), 28, PINGREQ_AT, 4, RECORDS_3));
    holds("28 where there is no room", ran(woken(BYTES(packets), 0), 28, 0, 0, 0));

    end = woken(BYTES(packets) - 1, sizeof room);
    holds("31 where the last byte is missing", ran(end, 31, PINGREQ_AT, 4, RECORDS_3));
    holds("31 before 28", ran(woken(BYTES(packets) - 1, RECORDS_3), 31, PINGREQ_AT, 4, RECORDS_3));
    memset(room, 0xa5, sizeof room);
    end = hub_queue(BYTES(once), 1500000, true, BYTES(behind), room, sizeof room);
    holds("32 for a packet of type 0, behind a PUBLISH", end.number == 32 && end.place == 13 && end.done == 1);
    holds("whose record stays", end.length == RECORDS_2 - RECORDS_1 && untouched(end.length) && counts(end, 2, 1));
    memset(wide, 'a', sizeof wide);
    memcpy(wide, PUBLISH, 13);
    memcpy(wide + 13, "\x30\x83\1\0\x81", 5);
    end = woken(wide, sizeof wide, sizeof room);
    holds("33 for a topic of 129 bytes, behind a PUBLISH", end.number == 33 && end.place == 13 && end.done == 1);
}

/* Two patterns: what hub_covers and hub_witness say, for the port and for the standard. */
static bool shows(struct HubWitness w, uint32_t number, const char *name) {
    static const uint8_t zeros[sizeof w.name] = {0};
    size_t length = strlen(name);
    return w.number == number && w.length == length && memcmp(w.name, name, length) == 0 &&
           memcmp(w.name + length, zeros, sizeof zeros - length) == 0;
}

/* The name is empty where there is none. */
#define COVERS(earlier, later, standard, name)                                                                        \
    holds(later " behind " earlier, hub_covers(BYTES(earlier), BYTES(later), standard) == (sizeof(name) == 1));       \
    holds("name of " later " alone", shows(hub_witness(BYTES(earlier), BYTES(later), standard), 0, name))

static void covering(void) {
    COVERS("a/+", "a/#", false, "a"); /* what the old shadow count calls dead */
    COVERS("a/+", "a/#", true, "a");
    COVERS("a/#", "a/+", false, "");
    COVERS("a/+", "a/b", true, "");
    COVERS("a/b", "a/+", false, "a/a");
    COVERS("a/a", "a/+", false, "a/b"); /* the second letter */
    COVERS("a/+", "a/", false, "a/");   /* the port's + refuses an empty last level */
    COVERS("a/+", "a/", true, "");
    COVERS("#", "$SYS/x", false, "");
    COVERS("#", "$SYS/x", true, "$SYS/x"); /* 4.7.2 */
    COVERS("+/#", "#", true, "");          /* the empty name is no name */
    COVERS("/+/#", "/#", false, "/");
    COVERS("/+/#", "/#", true, "");
    holds("9 for an earlier pattern", hub_covers(BYTES("a+"), BYTES("\xff"), false) == 9);
    holds("36 for a later one", hub_covers(BYTES("a"), BYTES("\xff"), false) == 36);
    holds("no name of a refused one", shows(hub_witness(BYTES("a"), BYTES(""), true), 9, ""));
}

/* A call that goes on where another one ended: the messages that were done stand behind its trace, and `n=` counts anew. */
static void waking_again(void) {
    static const char later[] = PASSED("1") ALERTED("2", "1", "2", "11") PASSED("3");
    static uint8_t trace[sizeof once + 2 * HUB_MESSAGE_LONGEST];
    struct HubQueue end = woken(BYTES(packets), RECORDS_2);
    size_t length = sizeof once - 1;
    holds("28 behind two packets", ran(end, 28, SUBSCRIBE_AT, 2, RECORDS_2));
    memcpy(trace, once, length);
    length += hub_packet_lines(BYTES(packets), 0, 1500000, true, trace + length, HUB_MESSAGE_LONGEST).length;
    length += hub_packet_lines(BYTES(packets), PUBLISH_AT, 1500000, true, trace + length, HUB_MESSAGE_LONGEST).length;
    end = hub_queue(trace, length, 1500000, true, (const uint8_t *)packets + end.place, PACKETS_END - end.place, room,
                    sizeof room);
    holds("the rest at that place", end.number == 0 && end.place == PACKETS_END - SUBSCRIBE_AT && end.done == 3);
    holds("its records", end.length == sizeof later - 1 && memcmp(room, later, end.length) == 0);
    holds("the counts of one call", counts(end, 6, 2));
}

/* A trace that is refused leaves the packets alone. */
static void waking_refused(void) {
    struct HubQueue end;
    memset(room, 0xa5, sizeof room);
    end = hub_queue(BYTES(""), 0, true, BYTES(packets), room, sizeof room);
    holds("26 for an empty trace", ran(end, 26, 0, 0, 0) && counts(end, 0, 0));
    end = hub_queue(BYTES(text) - 1, 1500000, true, BYTES(packets), room, sizeof room);
    holds("26 within its second message", ran(end, 26, 0, 0, 0));
    holds("the first one stays counted", counts(end, 1, 0));
    end = hub_queue(longer, sizeof longer, 0, true, BYTES(""), room, 0);
    holds("27 for a trace over the longest", ran(end, 27, 0, 0, 0) && counts(end, 0, 0));
}

int main(void) {
    matching();
    covering();
    hashing();
    tracing(hub_trace, hub_trace_length);
    tracing(hub_trace_standard, hub_trace_standard_length);
    standing(hub_standing);
    standing(hub_standing_standard);
    choosing();
    saving();
    converting();
    reading();
    lining();
    waking();
    waking_in_part();
    waking_again();
    waking_refused();
    printf("%d passed, %d failed\n", passed, failed);
    return failed != 0;
}
