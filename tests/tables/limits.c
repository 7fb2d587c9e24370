/* Each limit, reached: writes are made until one is refused, and answers are counted. */
#include <stdio.h>
#include <stdlib.h>
#include <string.h>

#include "store.h"

enum { WORDS = STORE_BLOCKS_MOST * STORE_BLOCK_WORDS };

static uint64_t image[WORDS + STORE_BLOCK_WORDS];
static uint16_t scratch[STORE_SCRATCH];
static store_shared shared;
static store_point points[STORE_POINTS + 1];
static uint8_t text[STORE_TEXT_MOST + 1], bytes[STORE_TEXT_MOST];
static uint32_t stored, steps; /* of the last write or read */

static void must(uint32_t refused)
{
    if (refused != STORE_DONE) {
        fprintf(stderr, "refused: %s\n", store_reason(refused));
        exit(1);
    }
}

static uint32_t begin(uint32_t p, size_t offset, size_t size)
{
    return store_begin(image, WORDS, &shared, &points[p], offset, text, size);
}

/* Steps of a point until its write or read is done; the refusal that ended it. */
static uint32_t finish(uint32_t p)
{
    stored = steps = 0;
    for (;;) {
        store_answer answer = store_step(image, WORDS, &shared, &points[p], bytes);
        steps++;
        stored += answer.word != 0;
        if (answer.kind == STORE_COMMITTED || answer.kind == STORE_BYTES)
            return STORE_DONE;
        if (answer.kind == STORE_REFUSED)
            return answer.value;
    }
}

static void write_at(uint32_t p, size_t offset, size_t size)
{
    must(begin(p, offset, size));
    must(finish(p));
}

/* A new file, with all points joined. */
static void start(void)
{
    must(store_lay_out(image, WORDS));
    must(store_open(image, WORDS, scratch, STORE_SCRATCH, &shared).refused);
    for (uint32_t p = 0; p < STORE_POINTS; p++)
        must(store_join(image, WORDS, &shared, p, &points[p]));
}

/* The greatest size for which a test holds that holds for small ones. */
static size_t greatest(size_t low, size_t high, int (*holds)(size_t))
{
    while (low < high) {
        size_t middle = (low + high + 1) / 2;
        if (holds(middle))
            low = middle;
        else
            high = middle - 1;
    }
    return low;
}

static int begins_of(size_t size)
{
    start();
    return begin(0, 0, size) == STORE_DONE;
}

static int reads_of(size_t size)
{
    start();
    return store_begin_read(image, WORDS, &shared, &points[0], 0, size) == STORE_DONE;
}

static int ends_at(size_t end)
{
    start();
    return begin(0, end - 1, 1) == STORE_DONE;
}

static int lays_out(size_t blocks)
{
    return store_lay_out(image, blocks * STORE_BLOCK_WORDS) == STORE_DONE;
}

static void row(const char *what, size_t figure)
{
    printf("| %s | %zu |\n", what, figure);
}

/* How many points can be joined at once. */
static size_t joined_points(void)
{
    start();
    size_t joined = 0;
    for (uint32_t p = 0; store_join(image, WORDS, &shared, p, &points[STORE_POINTS]) == STORE_ALREADY_JOINED; p++)
        joined++;
    return joined;
}

/* Writes of 8 bytes until one is refused: how many are committed; what the first and the longest have stored, and which one is the first to store more. */
static void fill_the_log(void)
{
    uint32_t first = 0, most = 0;
    size_t committed = 0, longer = 0;
    start();
    for (; begin(0, 0, 8) == STORE_DONE && finish(0) == STORE_DONE; committed++) {
        if (committed == 0)
            first = stored;
        if (stored > first && longer == 0)
            longer = committed;
        if (stored > most)
            most = stored;
    }
    row("committed writes of a file, at most", committed);
    row("words stored by a write of 8 bytes inside a block", first);
    row("words that such a write stores more if the log needs a block", most - first);
    row("writes until it needs the next one", longer);
}

/* The longest way of a write that goes on alone: three blocks filled; the first and the last, all of whose words hold bytes that are not its own, filled
   again, since another has written there; a log block zeroed and linked. */
static void longest_write(void)
{
    start();
    for (int i = 0; i < 61; i++)
        write_at(1, 0, 1);
    must(begin(0, 511, 514));
    write_at(1, 511, 514);
    must(finish(0));
    row("steps of a write that goes on alone, at most", steps);
}

/* The longest way of a read that goes on alone: 129 words copied, and again, since another has written there. */
static void longest_read(void)
{
    start();
    must(store_begin_read(image, WORDS, &shared, &points[0], 1, STORE_TEXT_MOST));
    write_at(1, 0, 8);
    must(finish(0));
    row("steps of a read that goes on alone, at most", steps);
}

int main(void)
{
    printf("| | |\n|---|---:|\n");
    row("bytes of a file, at most", greatest(1, 2 * STORE_FILE_MOST, ends_at));
    row("bytes of one write, at most", greatest(1, STORE_TEXT_MOST + 1, begins_of));
    row("bytes of one read in steps, at most", greatest(1, STORE_TEXT_MOST + 1, reads_of));
    size_t blocks = greatest(STORE_BLOCKS_LEAST, STORE_BLOCKS_MOST + 1, lays_out);
    row("blocks of an image, at most", blocks);
    row("KiB of an image, at most", blocks * STORE_BLOCK_WORDS * sizeof(uint64_t) / 1024);
    row("points joined, at most", joined_points());
    fill_the_log();
    longest_write();
    longest_read();
    return 0;
}
