/* emulated: the archives of loops and hub on x86-64, for a machine on which only an emulator runs that (bin/measure
 * emulated). The emulator counts all instructions of a run: two runs that differ in their work alone, and in nothing
 * else, tell what that work takes. Built with over_loops for the archive of loops, else for that of hub.
 *   loop RULES TOPICS MESSAGES    inspections in a loop, as oracle/src/benchloop.rs makes them
 *   trace FILE TIMES              a trace so many times, with 12 bytes of room for each byte of text
 *   stack FILE                    the deepest stack of the calls of traces, in bytes below their caller: with room for
 *                                 the answer, with just enough, with a byte less, and the length, by each matcher that
 *                                 the archive has */
#include <stdint.h>

typedef __SIZE_TYPE__ size_t;

extern int atoi(const char *);
extern int printf(const char *, ...);
extern int open(const char *, int, ...);
extern long read(int, void *, size_t);

#ifdef over_loops
extern uint64_t hub_loop(uint32_t, const uint8_t *, size_t, uint8_t, uint16_t, uint32_t);

int main(int argc, char **argv) {
    static const char name[] = "site/north/lamp/";
    static uint8_t topics[64 * 17];
    if (argc != 5 || atoi(argv[3]) > 64)
        return 2;
    const int count = atoi(argv[3]);
    for (int k = 0; k < count; k++) {
        for (int i = 0; i < 16; i++)
            topics[17 * k + i] = (uint8_t)name[i];
        topics[17 * k + 16] = (uint8_t)('0' + k);
    }
    printf("%lu\n", hub_loop((uint32_t)atoi(argv[2]), topics, 17 * (size_t)count, 17, 20, (uint32_t)atoi(argv[4])));
    return 0;
}
#else
#include "hub.h"

static uint8_t text[HUB_TRACE_LONGEST + 1], answer[HUB_TRACE_ENOUGH];
static size_t length;

/* Archives from before request C-15 have one matcher. */
#pragma weak hub_trace_standard
#pragma weak hub_trace_standard_length

static size_t ample(void) { return 12 * length < 109 ? 109 : 12 * length; }

static void calls(struct HubTrace (*trace)(const uint8_t *, size_t, uint8_t *, size_t),
                  struct HubTrace (*trace_length)(const uint8_t *, size_t)) {
    if (!trace)
        return;
    const size_t exact = trace_length(text, length).length;
    trace(text, length, answer, ample());
    trace(text, length, answer, exact);
    trace(text, length, answer, exact - 1);
}

/* The stack below this frame is painted, the calls made, and the paint that is left counted. */
__attribute__((noinline)) static size_t depth(void) {
    enum { ROOM = 1 << 17, ZONE = 256 };
    volatile uint8_t *const top = (volatile uint8_t *)__builtin_frame_address(0) - ZONE;
    for (size_t k = 1; k <= ROOM; k++)
        top[-(long)k] = 0xa5;
    calls(hub_trace, hub_trace_length);
    calls(hub_trace_standard, hub_trace_standard_length);
    size_t left = ROOM;
    while (left > 0 && top[-(long)left] == 0xa5)
        left--;
    return left + ZONE;
}

int main(int argc, char **argv) {
    const int file = argc > 2 ? open(argv[2], 0) : -1;
    long more;
    if (file < 0)
        return 2;
    while (length < sizeof text && (more = read(file, text + length, sizeof text - length)) > 0)
        length += (size_t)more;
    if (argc == 3) {
        printf("%lu\n", depth());
        return 0;
    }
    for (int times = atoi(argv[3]); times > 0; times--)
        hub_trace(text, length, answer, ample());
    return 0;
}
#endif
