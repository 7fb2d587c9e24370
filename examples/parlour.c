/* The main loop of a controller over the calls of store.h: 8 points, or as many as the argument says (1 to 32), each with a queue of readings.

   The program fills two files: in the first, one counter gives each reading its place; in the second, each point has blocks of its own. Each turn of
   the loop is one call that serves all points with a reading waiting. Each time the power fails once in the middle of such a call and once at the end;
   the file is opened again, read and checked. docs/GUIDE.md explains it and quotes the loop. */
#include <stdio.h>
#include <stdlib.h>
#include <string.h>

#include "store.h"

enum {
    READING = 32,   /* bytes of a reading: a divisor of 512, so that none lies in two blocks */
    READINGS = 24,  /* of each point */
    QUEUE = 4,      /* readings that wait at a point, at most */
    EVERY = 3,      /* turns between two readings of a point */
    CUT = 40,       /* the turn in which the power fails */
    BLOCK = 512     /* bytes of a block */
};

/* Memory that survives, mapped so that each store arrives there before the next. */
static uint64_t image[STORE_BLOCKS_MOST * STORE_BLOCK_WORDS];
static int new_file_wanted; /* a note of the firmware's own, outside the image */

/* Ordinary memory. */
static size_t words; /* of the image that are used */
static store_shared shared;
static store_head heads[STORE_POINTS]; /* the points' records, in any order: heads[i].number says whose are at place i */
static uint16_t tables[STORE_POINTS][STORE_VIRTUAL_BLOCKS];
static uint8_t texts[STORE_POINTS][STORE_TEXT_MOST];
static store_write writes[STORE_POINTS]; /* of the list that is served, with their bytes and what each point is answered */
static uint8_t readings[STORE_POINTS * READING];
static store_served answers[STORE_POINTS];
static uint16_t scratch[STORE_SCRATCH];
static size_t reserved; /* bytes of the file that have been given to readings */
static size_t places[STORE_POINTS];
static int has_place[STORE_POINTS];
static uint32_t entries; /* of the log */
static int recording;    /* the file is not full */
static int scarce;       /* so few blocks are free that writes go one at a time */

/* The devices at the points, each with a memory of its own: readings from `stored` on to below `made` wait there. */
static struct {
    uint32_t made, stored;
} queues[STORE_POINTS];

/* How many points, which places, and what is counted. */
static uint32_t count = 8;
static int own_blocks;
static uint32_t turns, calls, listed, moved;

static void fault(const char *what, uint32_t number)
{
    printf("%s: %u\n", what, (unsigned)number);
    exit(1);
}

/* A call was refused that should not have been. */
static void turned_down(const char *what, uint32_t why)
{
    printf("%s: %u, %s\n", what, (unsigned)why, store_reason(why));
    exit(1);
}

/* Reading `number` of point p. Its first byte is never 0, which tells it from an empty place. */
static void measure(uint32_t p, uint32_t number, uint8_t text[READING])
{
    for (uint32_t i = 0; i < READING; i++)
        text[i] = (uint8_t)(31 * p + 7 * number + i);
    text[0] = 1;
    text[1] = (uint8_t)p;
    text[2] = (uint8_t)number;
}

/* Opens the file, after every reset; all points join. It lays out on order only, never because opening was refused. */
static store_opened start(void)
{
    if (new_file_wanted) {
        uint32_t refused = store_lay_out(image, words);
        if (refused != STORE_DONE)
            turned_down("laying out was refused", refused);
        new_file_wanted = 0;
    }
    store_opened opened = store_open(image, words, scratch, STORE_SCRATCH, &shared);
    if (opened.refused != STORE_DONE)
        turned_down("the image does not open; save it, call service", opened.refused);
    for (uint32_t p = 0; p < count; p++) {
        store_point point;
        uint32_t refused = store_join(image, words, &shared, p, &point);
        if (refused != STORE_DONE)
            turned_down("joining was refused", refused);
        store_put(heads, tables, texts, p, &point);
    }
    reserved = ((size_t)opened.length + READING - 1) / READING * READING;
    memset(has_place, 0, sizeof has_place);
    entries = opened.entries;
    recording = 1;
    scarce = 0;
    return opened;
}

/* After a loss of power: a reading that was stored and not yet acknowledged is known by its number, and acknowledged now. */
static void acknowledge_found(uint32_t length)
{
    store_point point;
    uint8_t text[READING];
    store_get(heads, tables, texts, 0, &point);
    for (size_t place = 0; place < length; place += READING) {
        store_count got = store_read(image, words, &shared, &point, place, text, READING);
        if (got.refused != STORE_DONE)
            turned_down("reading was refused", got.refused);
        if (text[0] != 0 && text[2] == queues[text[1]].stored)
            queues[text[1]].stored++;
    }
}

/* The place in the file of point p's oldest reading. The counter gives it once, and it is kept until the reading is stored. */
static size_t place_of(uint32_t p)
{
    if (own_blocks)
        return p * ((size_t)STORE_VIRTUAL_BLOCKS / count * BLOCK) + (size_t)queues[p].stored * READING;
    if (!has_place[p]) {
        has_place[p] = 1;
        places[p] = reserved;
        reserved += READING;
    }
    return places[p];
}

/* Two records change places. */
static void exchange(uint32_t i, uint32_t k)
{
    store_point one, other;
    store_get(heads, tables, texts, i, &one);
    store_get(heads, tables, texts, k, &other);
    store_put(heads, tables, texts, k, &one);
    store_put(heads, tables, texts, i, &other);
}

/* Lists the points that have a reading waiting: brings their records to the front, and says what each writes. Answers how many. */
static uint32_t list_waiting(void)
{
    uint32_t n = 0;
    for (uint32_t i = 0; i < count && !(scarce && n == 1); i++) {
        uint32_t p = heads[i].number;
        if (queues[p].stored == queues[p].made)
            continue;
        if (i != n)
            exchange(i, n);
        measure(p, queues[p].stored, readings + (size_t)n * READING);
        writes[n].offset = place_of(p);
        writes[n].size = READING;
        n++;
    }
    return n;
}

/* A write of a list of n was refused. The reading stays in its queue. */
static void refused_write(uint32_t n, uint32_t why)
{
    int no_block = why == STORE_NO_RUN || why == STORE_NO_LOG_BLOCK;
    if (no_block && n > 1)
        scarce = 1; /* try again, but one at a time */
    else if (no_block || why == STORE_PAST_END || why == STORE_LOG_FULL)
        recording = 0; /* the file is full */
    else
        turned_down("a write was refused", why);
}

static void turn(void)
{
    uint32_t n = list_waiting();
    if (n == 0)
        return;
    uint32_t refused =
        store_serve(image, words, &shared, heads, n, tables, n, texts, n, answers, n, writes, n, readings, (size_t)n * READING);
    if (refused != STORE_DONE)
        turned_down("the list was refused", refused);
    for (uint32_t i = 0; i < n; i++) {
        uint32_t p = heads[i].number;
        if (answers[i].kind == STORE_COMMITTED) {
            queues[p].stored++; /* acknowledged now, and not before */
            has_place[p] = 0;
            entries++;
            moved += answers[i].value;
        } else if (answers[i].kind == STORE_REFUSED)
            refused_write(n, answers[i].value);
        else
            fault("a write that does not end, of point", p);
    }
    calls++;
    listed += n;
}

/* The devices measure: a reading every so many turns, as long as there is room in the queue. Answers whether a reading is still to be stored. */
static int devices_measure(void)
{
    int more = 0;
    for (uint32_t p = 0; p < count; p++) {
        if ((turns + p) % EVERY == 0 && queues[p].made < READINGS && queues[p].made - queues[p].stored < QUEUE)
            queues[p].made++;
        more |= queues[p].stored < READINGS;
    }
    return more;
}

/* The power fails and comes back: ordinary memory is lost. */
static void lose_power(void)
{
    memset(&shared, 0xFF, sizeof shared);
    memset(heads, 0xFF, sizeof heads);
    memset(tables, 0xFF, sizeof tables);
    memset(texts, 0xFF, sizeof texts);
    reserved = entries = 0;
}

/* The power fails inside a turn's call, right after the first write of its list is committed. The call makes these beginnings and steps in this order,
   so the image is as the call leaves it at that moment. */
static void turn_cut_short(void)
{
    static store_point points[STORE_POINTS];
    uint8_t room[STORE_TEXT_MOST]; /* for reads in steps: examples/display.c */
    store_answer answer = {0, 0, 0};
    uint32_t n = list_waiting();
    for (uint32_t i = 0; i < n; i++) {
        store_get(heads, tables, texts, i, &points[i]);
        uint32_t refused = store_begin(image, words, &shared, &points[i], writes[i].offset, readings + (size_t)i * READING, READING);
        if (refused != STORE_DONE)
            turned_down("a write was refused", refused);
    }
    for (uint32_t i = 0; n > 0 && answer.kind != STORE_COMMITTED; i = (i + 1) % n) {
        answer = store_step(image, words, &shared, &points[i], room);
        if (answer.kind == STORE_REFUSED)
            turned_down("a write was refused", answer.value);
    }
    lose_power();
}

/* Free blocks at this moment: what opening answers, kept up by every call. */
static uint32_t free_blocks(void)
{
    uint32_t taken = 0;
    for (size_t w = 0; w < sizeof shared.taken / sizeof shared.taken[0]; w++)
        for (uint64_t rest = shared.taken[w]; rest != 0; rest &= rest - 1)
            taken++;
    return shared.blocks - taken;
}

/* Reads the file back: each stored reading stands there once, and beside them only empty places, of zeros. Answers how many. */
static uint32_t check_file(uint32_t length)
{
    uint8_t seen[STORE_POINTS][READINGS] = {{0}}, none[READING] = {0}, text[READING], wanted[READING];
    store_point point;
    store_get(heads, tables, texts, 0, &point);
    uint32_t found = 0, empty = 0;
    for (size_t place = 0; place < length; place += READING) {
        store_count got = store_read(image, words, &shared, &point, place, text, READING);
        if (got.refused != STORE_DONE || got.count != READING)
            turned_down("reading was refused", got.refused);
        const uint64_t *block = store_view(image, words, &shared, &point, place / BLOCK);
        if (memcmp(block ? (const uint8_t *)block + place % BLOCK : none, text, READING) != 0)
            fault("a view shows something else at byte", (uint32_t)place);
        if (memcmp(text, none, READING) == 0) {
            empty++;
            continue;
        }
        if (text[1] >= count || text[2] >= queues[text[1]].stored || seen[text[1]][text[2]]++)
            fault("a reading that was not stored, or one twice, at byte", (uint32_t)place);
        measure(text[1], text[2], wanted);
        if (memcmp(text, wanted, READING) != 0)
            fault("a broken reading at byte", (uint32_t)place);
        found++;
    }
    for (uint32_t p = 0; p < count; p++)
        found -= queues[p].stored;
    if (found != 0)
        fault("readings missing", 0 - found);
    return empty;
}

/* Blocks that an image needs for so many writes in all, each inside one block, and so many blocks of the file: superblock, log, file, and for each point
   the block that it fills and a log block that it may be zeroing. */
static size_t blocks_needed(size_t all, size_t file_blocks)
{
    return 1 + (all / 62 + 1) + file_blocks + 2 * (size_t)count;
}

/* All readings of all points go into a new file. */
static void run(const char *title)
{
    size_t own = ((size_t)READINGS * READING + BLOCK - 1) / BLOCK * count;
    size_t together = ((size_t)(READINGS + 1) * count * READING + BLOCK - 1) / BLOCK; /* one more of each: places that the cut leaves empty */
    size_t blocks = blocks_needed((size_t)READINGS * count, own_blocks ? own : together);
    words = STORE_BLOCK_WORDS * blocks;
    memset(queues, 0, sizeof queues);
    new_file_wanted = 1;
    turns = calls = listed = moved = 0;
    printf("%s, image of %u blocks\n", title, (unsigned)blocks);

    start();
    while (devices_measure() && recording) {
        if (++turns != CUT) {
            turn();
            continue;
        }
        uint32_t acknowledged = entries;
        turn_cut_short();
        store_opened opened = start();
        acknowledge_found(opened.length);
        uint32_t empty = check_file(opened.length);
        printf("  power lost inside the call of turn %u: %u readings acknowledged before, %u stored, all there; %u empty places\n", (unsigned)turns,
               (unsigned)acknowledged, (unsigned)opened.entries, (unsigned)empty);
    }
    if (!recording)
        fault("the file is full; entries", entries);
    printf("  %u readings stored in %u turns by %u calls, which listed %u; a write was moved %u times\n", (unsigned)entries, (unsigned)turns,
           (unsigned)calls, (unsigned)listed, (unsigned)moved);

    uint32_t left = free_blocks();
    lose_power();
    store_opened opened = start();
    uint32_t empty = check_file(opened.length);
    if (opened.free != left || opened.entries != READINGS * count)
        fault("free blocks or entries differ", opened.free);
    printf("  read back: length %u, %u entries, %u free blocks, %u empty places\n", (unsigned)opened.length, (unsigned)opened.entries,
           (unsigned)opened.free, (unsigned)empty);
}

int main(int argc, char **argv)
{
    if (store_version() != STORE_VERSION)
        fault("header and library differ; the library's version", store_version());
    if (argc > 1)
        count = (uint32_t)strtoul(argv[1], NULL, 10);
    if (count < 1 || count > STORE_POINTS)
        fault("points must be 1 to 32, not", count);
    printf("%u points, %u readings of %u bytes each\n", (unsigned)count, (unsigned)READINGS, (unsigned)READING);
    run("places by one counter");
    own_blocks = 1;
    run("places in blocks of each point's own");
    return 0;
}
