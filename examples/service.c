/* The service screen of a milking parlour: in which log block each point stands, and how many log blocks it is behind.

   Two stalls write. A display reads in steps, slowly; a scale has joined and does nothing; a vet's terminal comes and goes. The screen needs no call: the
   shared record reports the log blocks, and store_behind of the header follows the chain from there.
   Build it, once `include/build` has made the library:
     cc -std=c99 -O2 -Iinclude examples/service.c crates/c_api/out/libc_api.a -o service */

#include <stdio.h>
#include <stdlib.h>
#include <string.h>

#include "store.h"

enum { STALL, OTHER_STALL, DISPLAY, SCALE, VET, POINTS };
enum { WORDS = 32 * STORE_BLOCK_WORDS, LINE = 16, ABSENT = -1 };

static const char *const names[POINTS] = {"stall 0", "stall 1", "display", "scale", "vet"};
static uint64_t image[WORDS];
static uint16_t scratch[STORE_SCRATCH];
static store_shared shared;
static store_point points[POINTS];
static uint8_t bytes[STORE_TEXT_MOST];
static unsigned writes;

/* Ends the program where something unexpected was answered, or a call was refused. */
static void must(int holds, const char *what)
{
    if (!holds) {
        fprintf(stderr, "unexpected: %s\n", what);
        exit(1);
    }
}

static void done(uint32_t refused)
{
    must(refused == STORE_DONE, store_reason(refused));
}

/* Steps until an answer of this kind, and at most so many; whether it came. */
static int steps(unsigned p, uint32_t kind, unsigned most)
{
    for (unsigned n = 0; n < most; n++) {
        store_answer answer = store_step(image, WORDS, &shared, &points[p], bytes);
        if (answer.kind == STORE_REFUSED)
            done(answer.value);
        if (answer.kind == kind)
            return 1;
    }
    return 0;
}

/* The stalls write in turn until so many writes are committed. */
static void write_until(unsigned count)
{
    for (; writes < count; writes++) {
        unsigned p = writes % 2 ? OTHER_STALL : STALL;
        char line[LINE + 1];
        snprintf(line, sizeof line, "visit %3u 11 kg\n", writes % 1000);
        done(store_begin(image, WORDS, &shared, &points[p], (size_t)LINE * (writes % 32), (const uint8_t *)line, LINE));
        must(steps(p, STORE_COMMITTED, 388), "a write alone takes more than 388 steps");
    }
}

/* The figures anew, from the superblock on: the chain's length; and how many log blocks come after this one. */
static uint32_t blocks_after(uint64_t block, uint32_t *chain)
{
    uint32_t place = 0;
    *chain = 0;
    for (uint64_t at = image[1]; at != 0; at = image[STORE_BLOCK_WORDS * at]) {
        place = at == block ? *chain : place;
        must(++*chain <= STORE_CHAIN_MOST, "the chain has no end");
    }
    return *chain - 1 - place;
}

/* The screen; and whether it shows what is expected, ABSENT for a point that is not joined. */
static void screen(uint32_t chain, const int expected[POINTS])
{
    printf("after %3u writes the chain has %u log block%s\n", writes, shared.chain, shared.chain == 1 ? "" : "s");
    must(shared.chain == chain, "another chain length");
    for (unsigned p = 0; p < POINTS; p++) {
        uint32_t behind = store_behind(image, WORDS, &shared, p), counted;
        must((shared.joined >> p & 1) == (expected[p] != ABSENT), "another point is joined");
        if (expected[p] == ABSENT) {
            must(shared.reports[p] == 0 && behind == 0, "a point that is not joined is reported");
            continue;
        }
        printf("  %-8s log block %2u, %u behind\n", names[p], shared.reports[p], behind);
        must(shared.reports[p] == points[p].head.block, "a report is not where the point stands");
        must(behind == (uint32_t)expected[p], "a point is behind by another figure");
        must(behind == blocks_after(shared.reports[p], &counted) && counted == chain, "the chain says something else");
    }
}

int main(void)
{
    must(store_version() == STORE_VERSION, "header and library differ in version");
    done(store_lay_out(image, WORDS));
    done(store_open(image, WORDS, scratch, STORE_SCRATCH, &shared).refused);
    for (unsigned p = 0; p < POINTS; p++)
        done(store_join(image, WORDS, &shared, p, &points[p]));
    screen(1, (const int[POINTS]){0, 0, 0, 0, 0});

    /* the first log block is full, and a second linked; then the display begins a read, and the vet's terminal leaves */
    write_until(70);
    done(store_begin_read(image, WORDS, &shared, &points[DISPLAY], 0, STORE_TEXT_MOST));
    must(!steps(DISPLAY, STORE_BYTES, 20), "a read of 128 words is done after 20 steps");
    done(store_leave(image, WORDS, &shared, &points[VET]));
    screen(2, (const int[POINTS]){0, 0, 0, 1, ABSENT});

    /* two log blocks on: whoever took no step stands where it stood */
    write_until(200);
    screen(4, (const int[POINTS]){0, 0, 2, 3, ABSENT});

    /* the read's last step reads up to the log's end; who joins begins with the first log block */
    must(steps(DISPLAY, STORE_BYTES, 260), "a read alone takes more than 260 steps");
    done(store_join(image, WORDS, &shared, VET, &points[VET]));
    screen(4, (const int[POINTS]){0, 0, 0, 3, 3});
    printf("every figure is that of the chain\n");
    return 0;
}
