/* The controller of a milking parlour keeps the readings of three stalls in one file: a session with a loss of power in it.

   Build it, once `include/build` has made the library:
     cc -std=c99 -O2 -Iinclude examples/store.c crates/c_api/out/libc_api.a -o store */

#include <stdio.h>
#include <stdlib.h>
#include <string.h>

#include "store.h"

enum { WORDS = 16 * STORE_BLOCK_WORDS, POINTS = 3, SIZE = 24 };

/* On the controller the image lies in the memory that survives loss of power; all else may be lost. */
static uint64_t image[WORDS];
static uint16_t scratch[STORE_SCRATCH];
static store_shared shared;
static store_point points[POINTS];
static uint8_t bytes[STORE_TEXT_MOST]; /* for reads in steps, of which there are none here: examples/display.c has them */

/* The readings, and where each stall's lies in the file: the first in block 1, the other two in block 0. */
static const char *const readings[POINTS] = {"stall 0  11.2 kg  38.4 C", "stall 1   9.8 kg  38.6 C", "stall 2  12.5 kg  38.5 C"};
static const size_t places[POINTS] = {512, 0, SIZE};

/* Ends the program where something unexpected was answered, or a call was refused. */
static void must(int holds, const char *what)
{
    if (!holds) {
        fprintf(stderr, "unexpected: %s\n", what);
        exit(1);
    }
}

static void done(uint32_t refused)
{
    must(refused == STORE_DONE, store_reason(refused));
}

/* Begins a write at the point's place. */
static void begin(unsigned i, const char *text)
{
    done(store_begin(image, WORDS, &shared, &points[i], places[i], (const uint8_t *)text, strlen(text)));
}

/* Makes one step of the point's write; 1 as long as there are more to make. */
static int step(unsigned i)
{
    store_answer answer = store_step(image, WORDS, &shared, &points[i], bytes);
    switch (answer.kind) {
    case STORE_STORED:
    case STORE_EXTENDING:
        return 1;
    case STORE_MOVED:
        printf("point %u: moved, the other was first; it fills again what the other has changed\n", i);
        return 1;
    case STORE_COMMITTED:
        printf("point %u: committed \"%s\", retries %u\n", i, readings[i], (unsigned)answer.value);
        return 0;
    default: /* 20 and 21, a full log or image, have ended the write; after any other refusal it is still under way */
        done(answer.value);
        return 0;
    }
}

/* Opens the image: after loss of power the same as ever, as there is nothing to repair. Then the points join. */
static store_opened start(void)
{
    store_opened opened = store_open(image, WORDS, scratch, STORE_SCRATCH, &shared);
    done(opened.refused);
    printf("opened: %u bytes, %u log entries, %u blocks free\n", (unsigned)opened.length, (unsigned)opened.entries, (unsigned)opened.free);
    for (unsigned i = 0; i < POINTS; i++)
        done(store_join(image, WORDS, &shared, i, &points[i]));
    return opened;
}

/* What was committed before the cut is there whole, and nothing of the write that was cut. */
static void look(void)
{
    uint16_t rows[STORE_VIRTUAL_BLOCKS];
    store_opened listed = store_list(image, WORDS, scratch, STORE_SCRATCH, rows);
    done(listed.refused);
    for (unsigned v = 0; v < STORE_VIRTUAL_BLOCKS; v++)
        if (rows[v] != 0)
            printf("block %u of the file is block %u of the image\n", v, (unsigned)rows[v]);
    for (unsigned i = 0; i < POINTS; i++) {
        uint8_t buffer[SIZE];
        store_count count = store_read(image, WORDS, &shared, &points[i], places[i], buffer, sizeof buffer);
        done(count.refused);
        must(count.count == SIZE, "a read is short");
        must(memcmp(buffer, readings[i], SIZE) == 0, "a read shows something else than was committed");
        printf("read: \"%.*s\"\n", SIZE, (const char *)buffer);
    }
}

int main(void)
{
    must(store_version() == STORE_VERSION, "header and library differ in version");
    done(store_lay_out(image, WORDS));
    store_opened first = start();
    must(first.length == 0 && first.entries == 0, "a file laid out is not empty");

    /* A point alone: begin, then step until it is committed. */
    begin(0, readings[0]);
    while (step(0))
        ;

    /* Two points in one block, a step each in turn. Nobody waits for anybody. */
    int more1 = 1, more2 = 1;
    begin(1, readings[1]);
    begin(2, readings[2]);
    while (more1 || more2) {
        if (more1)
            more1 = step(1);
        if (more2)
            more2 = step(2);
    }

    /* The power is cut in the middle of a fourth write: of all memory only the image stays as it is. */
    begin(0, "stall 0   0.0 kg   0.0 C");
    for (unsigned i = 0; i < 40; i++)
        must(step(0), "the write is done too early");
    memset(&shared, 0xA5, sizeof shared);
    memset(points, 0xA5, sizeof points);
    memset(scratch, 0xA5, sizeof scratch);
    printf("power cut after 40 words of a fourth write\n");

    store_opened again = start();
    must(again.entries == 3 && again.length == 512 + SIZE, "there is not what was committed");
    must(again.free == first.free - 2, "the write that was cut holds a block");
    look();
    printf("all there, and nothing of the fourth write\n");
    return 0;
}
