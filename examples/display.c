/* The yield display of a milking parlour reads the file while four stalls write into it. Nobody waits for anybody.

   In each turn every stall takes one step of its write, and the display one step of its read. A read has the file as of its last step: where a stall has
   committed into its range meanwhile, that step answers STORE_MOVED and the read begins again by itself.
   Build it, once `include/build` has made the library:
     cc -std=c99 -O2 -Iinclude examples/display.c crates/c_api/out/libc_api.a -o display */

#include <stdio.h>
#include <stdlib.h>
#include <string.h>

#include "store.h"

enum { WORDS = 16 * STORE_BLOCK_WORDS, STALLS = 4, DISPLAY = STALLS, READINGS = 2, LINE = 16, SHOWN = STALLS * LINE };

static uint64_t image[WORDS];
static uint16_t scratch[STORE_SCRATCH];
static store_shared shared;
static store_point points[STALLS + 1];
static uint8_t bytes[STORE_TEXT_MOST]; /* a read's bytes, once it is done; no other step touches them */

/* The readings: each stall has a line of the file, which its second reading goes over. */
static const char *const readings[READINGS][STALLS] = {
    {"stall 0   4.1 kg", "stall 1   3.8 kg", "stall 2   5.0 kg", "stall 3   4.4 kg"},
    {"stall 0  11.2 kg", "stall 1   9.8 kg", "stall 2  12.5 kg", "stall 3  10.7 kg"},
};
static unsigned written[STALLS]; /* readings of each stall */

/* The file as the answers STORE_COMMITTED tell it, which is what a read must show; and what the display shows. */
static uint8_t committed[SHOWN], shown[SHOWN];
static unsigned turn;

/* Ends the program where something unexpected was answered, or a call was refused. */
static void must(int holds, const char *what)
{
    if (!holds) {
        fprintf(stderr, "unexpected: %s\n", what);
        exit(1);
    }
}

static void done(uint32_t refused)
{
    must(refused == STORE_DONE, store_reason(refused));
}

/* A stall's turn: it begins its next reading, or takes a step of the one under way. */
static void write_on(unsigned i)
{
    store_point *stall = &points[i];
    if (written[i] == READINGS)
        return;
    const char *reading = readings[written[i]][i];
    if (stall->head.phase == STORE_IDLE) {
        done(store_begin(image, WORDS, &shared, stall, LINE * i, (const uint8_t *)reading, LINE));
        return;
    }
    store_answer answer = store_step(image, WORDS, &shared, stall, bytes);
    if (answer.kind == STORE_REFUSED)
        done(answer.value);
    if (answer.kind == STORE_COMMITTED) {
        written[i]++;
        memcpy(committed + LINE * i, reading, LINE);
        printf("turn %3u  stall %u commits \"%s\"\n", turn, i, reading);
    }
}

/* A line of the display, with dots where nothing has been written. */
static void show(void)
{
    printf("turn %3u  display", turn);
    for (unsigned i = 0; i < STALLS; i++)
        printf(" [%.*s]", LINE, shown[LINE * i] ? (const char *)shown + LINE * i : "................");
    printf("\n");
}

/* The display's turn: it begins a read of all lines, or takes a step of the one under way. */
static void read_on(void)
{
    store_point *display = &points[DISPLAY];
    if (display->head.phase == STORE_IDLE) {
        done(store_begin_read(image, WORDS, &shared, display, 0, SHOWN));
        return;
    }
    store_answer answer = store_step(image, WORDS, &shared, display, bytes);
    switch (answer.kind) {
    case STORE_COPIED: /* one word of the file is in the display's record */
        break;
    case STORE_MOVED:
        printf("turn %3u  display: the file has changed under the read; it begins again\n", turn);
        break;
    case STORE_BYTES:
        must(answer.value == SHOWN, "a read is short");
        must(memcmp(bytes, committed, SHOWN) == 0, "a read shows another file than that of its last step");
        if (memcmp(shown, bytes, SHOWN) != 0) {
            memcpy(shown, bytes, SHOWN);
            show();
        }
        break;
    default:
        done(answer.value);
        break;
    }
}

/* Whether all is written, and the display shows it. */
static int is_over(void)
{
    for (unsigned i = 0; i < STALLS; i++)
        if (written[i] < READINGS)
            return 0;
    return memcmp(shown, committed, SHOWN) == 0;
}

int main(void)
{
    must(store_version() == STORE_VERSION, "header and library differ in version");
    done(store_lay_out(image, WORDS));
    done(store_open(image, WORDS, scratch, STORE_SCRATCH, &shared).refused);
    for (unsigned i = 0; i <= DISPLAY; i++)
        done(store_join(image, WORDS, &shared, i, &points[i]));
    for (turn = 1; !is_over(); turn++) {
        must(turn < 1000, "it does not come to an end");
        for (unsigned i = 0; i < STALLS; i++)
            write_on(i);
        read_on();
    }
    printf("the display shows all that was committed\n");
    return 0;
}
