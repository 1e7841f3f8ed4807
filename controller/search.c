/* The cue listing of every body in the file bodies.bin, on the emulated controller: a line for each with the instructions, the status and the two numbers of `out`. A body is its
 * length and its type, 32 bits each, lowest byte first, and its bytes. For controller/search. */
#include "bare.h"

static uint8_t body[16384];

void reset(void) {
    static const char name[] = "bodies.bin";
    const uint32_t opened[3] = {(uint32_t)(uintptr_t)name, 1, sizeof name - 1}; /* for reading bytes */
    uint32_t file = (uint32_t)host(0x01, opened), head[2];
    const uint32_t heads[3] = {file, (uint32_t)(uintptr_t)head, sizeof head};
    while (host(0x06, heads) == 0 && head[0] <= sizeof body) {
        const uint32_t bodies[3] = {file, (uint32_t)(uintptr_t)body, head[0]};
        if (host(0x06, bodies) != 0) break;
        uint64_t out[2] = {0};
        begin();
        uint32_t status = film_cue_listing(body, head[0], head[1], rows, ROOM, listing, sizeof listing, out);
        uint32_t spent = ticks();
        const uint64_t told[4] = {(uint64_t)spent * 40, status, out[0], out[1]};
        for (unsigned k = 0; k < 4; k++) {
            number(told[k]);
            text(k < 3 ? " " : "\n");
        }
    }
    host(0x18, (const void *)0x20026);
    for (;;) {
    }
}
