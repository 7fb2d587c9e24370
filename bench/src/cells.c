/* The calls that bench/against measures, by the library of one side. Only `library`, at the end, is seen from outside.

   The image has 1,024 blocks. Calls go through several copies of the records, which are put back between, so that a beginning or a commit is timed alone. */
#include <stdint.h>
#include <stdio.h>
#include <stdlib.h>
#include <string.h>

#include "cells.h"
#include "store.h"

enum { BLOCKS = STORE_BLOCKS_MOST, WORDS = BLOCKS * STORE_BLOCK_WORDS, BLOCK = 8 * STORE_BLOCK_WORDS };
enum { COPIES = 16 };                                /* they fit into the nearest cache */
enum { ENTRIES = 1000, PLACES = 32, APART = 4096 };  /* of the log that is opened, as bench/count has it */
enum { POINTS = 8, WRITES = 1000 };                  /* of the ordinary map */

/* The point's record first: it lies at the same place of a page whatever the shared record's size. */
typedef struct records {
    store_point point;
    store_shared shared;
} records;

/* A cell: its name; what sets it up; its call; the write that it is about; how often each copy gets the call before the records are put back; and of a
   call that serves how many points, whose records have no copies. */
typedef struct cell {
    const char *name;
    void (*make)(void);
    void (*call)(records *);
    size_t offset, size, rounds, served;
} cell;

/* All memory that the calls are lent, at the same places of a page on both sides. */
static struct {
    uint64_t image[WORDS];
    records kept, copies[COPIES];
    uint16_t scratch[STORE_SCRATCH];
    uint8_t text[STORE_TEXT_MOST], buffer[STORE_TEXT_MOST];
} memory __attribute__((aligned(4096)));

/* The step of this side's header: up to version 2 it is lent no room for the bytes of a read. */
#ifdef STEP_WITHOUT_BYTES
#define step(shared, point) store_step(image, WORDS, shared, point)
#else
#define step(shared, point) store_step(image, WORDS, shared, point, memory.buffer)
#endif

static uint64_t *const image = memory.image;
static uint16_t *const scratch = memory.scratch;
static uint8_t *const text = memory.text;
static records *const kept = &memory.kept;
static const cell *now;

static void must(int holds)
{
    if (!holds) {
        fprintf(stderr, "%s: a call has another answer than it should\n", now->name);
        exit(1);
    }
}

/* ---- Where calls begin: the image, and the records that are kept. */

/* An empty file, and one point. */
static void fresh(void)
{
    must(store_lay_out(image, WORDS) == STORE_DONE);
    must(store_open(image, WORDS, scratch, STORE_SCRATCH, &kept->shared).refused == STORE_DONE);
    must(store_join(image, WORDS, &kept->shared, 0, &kept->point) == STORE_DONE);
}

static void begin_at(store_point *point, size_t offset, size_t size)
{
    must(store_begin(image, WORDS, &kept->shared, point, offset, text, size) == STORE_DONE);
}

static void finish(store_point *point)
{
    while (point->head.phase != STORE_IDLE)
        must(step(&kept->shared, point).kind != STORE_REFUSED);
}

static void begun(void)
{
    fresh();
    begin_at(&kept->point, now->offset, now->size);
}

static void filled(void)
{
    begun();
    for (size_t w = 0; w < now->size / 8; w++)
        must(step(&kept->shared, &kept->point).kind == STORE_STORED);
}

static void written(void)
{
    begun();
    finish(&kept->point);
}

/* A write begun over a block that is mapped. */
static void over(void)
{
    fresh();
    begin_at(&kept->point, 0, BLOCK);
    finish(&kept->point);
    begin_at(&kept->point, now->offset, now->size);
}

/* The same, filled, when another point has committed to that block. */
static void overtaken(void)
{
    static store_point other;
    over();
    must(store_join(image, WORDS, &kept->shared, 1, &other) == STORE_DONE);
    begin_at(&other, 0, 8);
    finish(&other);
    for (size_t w = 0; w < STORE_BLOCK_WORDS; w++)
        must(step(&kept->shared, &kept->point).kind == STORE_STORED);
}

/* The step after that: what is copied is to be filled again. */
static void moved(void)
{
    overtaken();
    must(step(&kept->shared, &kept->point).kind == STORE_MOVED);
}

/* The log block is full, and the next one zeroed. */
static void zeroed(void)
{
    fresh();
    for (size_t i = 0; i < STORE_BLOCK_WORDS - 2; i++) {
        begin_at(&kept->point, 0, 8);
        finish(&kept->point);
    }
    begin_at(&kept->point, 0, 8);
    while (step(&kept->shared, &kept->point).kind != STORE_EXTENDING) {
    }
    for (size_t w = 0; w < STORE_BLOCK_WORDS; w++)
        must(step(&kept->shared, &kept->point).kind == STORE_STORED);
}

/* A log of 1,000 entries, of writes of 64 bytes at 32 places in turn. */
static void logged(void)
{
    fresh();
    for (size_t i = 0; i < ENTRIES; i++) {
        begin_at(&kept->point, APART * (i % PLACES), 64);
        finish(&kept->point);
    }
}

/* Of the blocks from `from` to below `end`, each `every`-th is taken. */
static void take(uint32_t from, uint32_t end, uint32_t every)
{
    for (uint32_t b = from; b < end; b += every)
        kept->shared.taken[b / 64] |= UINT64_C(1) << (b % 64);
}

/* Every other block is taken; the last three are free. */
static void checkered(void)
{
    fresh();
    take(2, BLOCKS - 3, 2);
}

static void free_at_end(void)
{
    fresh();
    take(1, BLOCKS - 3, 1);
}

static void free_at_start(void)
{
    fresh();
    take(5, BLOCKS, 1);
}

static uint64_t seed;

static uint32_t below(uint32_t limit)
{
    seed = seed * UINT64_C(6364136223846793005) + UINT64_C(1442695040888963407);
    return (uint32_t)((seed >> 33) % limit);
}

/* A write at a drawn place: of 100 some 70 span one block, 20 two and 10 three. */
static void begin_any(store_point *point)
{
    uint32_t percent = below(100), span = percent < 70 ? 1 : percent < 90 ? 2 : 3;
    size_t first = below(STORE_VIRTUAL_BLOCKS - span + 1);
    begin_at(point, first * BLOCK + BLOCK / 2, span == 1 ? BLOCK / 2 : (span - 1) * BLOCK);
}

/* What 1,000 such writes leave: each library has the map that its own search makes. Points take turns, and while one commits the others have a write
   under way; so they have at the end, all but the one that is kept. */
static void ordinary(void)
{
    static store_point points[POINTS];
    fresh();
    seed = 0;
    points[0] = kept->point;
    for (uint32_t p = 1; p < POINTS; p++)
        must(store_join(image, WORDS, &kept->shared, p, &points[p]) == STORE_DONE);
    for (int i = 0; i < WRITES + POINTS - 1; i++) {
        finish(&points[i % POINTS]);
        begin_any(&points[i % POINTS]);
    }
    kept->point = points[(WRITES - 1) % POINTS];
    finish(&kept->point);
}

/* ---- The calls. */

static void nothing(records *r)
{
    (void)r;
}

static void fill(records *r)
{
    must(step(&r->shared, &r->point).kind == STORE_STORED);
}

/* A commit; its entry is taken out again, for the next copy. */
static void commit(records *r)
{
    store_answer answer = step(&r->shared, &r->point);
    must(answer.kind == STORE_COMMITTED);
    image[answer.word] = 0;
}

/* A step that catches up. */
static void move_on(records *r)
{
    must(step(&r->shared, &r->point).kind == STORE_MOVED);
}

/* A link, which is taken out again. */
static void link(records *r)
{
    store_answer answer = step(&r->shared, &r->point);
    must(answer.kind == STORE_STORED && r->point.head.phase != kept->point.head.phase);
    image[answer.word] = 0;
}

static void begin(records *r)
{
    must(store_begin(image, WORDS, &r->shared, &r->point, now->offset, text, now->size) == STORE_DONE);
}

static void open(records *r)
{
    must(store_open(image, WORDS, scratch, STORE_SCRATCH, &r->shared).entries == ENTRIES);
}

static void read(records *r)
{
    must(store_read(image, WORDS, &r->shared, &r->point, now->offset, memory.buffer, now->size).count == now->size);
}

#ifdef SERVING
/* ---- Serving: the points' records in three lists, kept and in use, and what else the call is lent. */
typedef struct lists {
    store_head heads[STORE_POINTS];
    uint16_t tables[STORE_POINTS][STORE_VIRTUAL_BLOCKS];
    uint8_t texts[STORE_POINTS][STORE_TEXT_MOST];
} lists;

static struct {
    lists kept, used;
    store_served answers[STORE_POINTS];
    store_write writes[STORE_POINTS];
    uint8_t bytes[STORE_POINTS * STORE_TEXT_MOST];
} lent __attribute__((aligned(4096)));

/* Each listed point writes to a place of its own. */
static void serve(records *r)
{
    size_t n = now->served;
    lists *l = &lent.used;
    must(store_serve(image, WORDS, &r->shared, l->heads, n, l->tables, n, l->texts, n, lent.answers, n, lent.writes, n, lent.bytes, n * now->size) ==
         STORE_DONE);
    must(lent.answers[n - 1].kind == STORE_COMMITTED);
}

/* The log is as it was: nothing but its first entries, one of each point. */
static void put_back_lists(void)
{
    lent.used = lent.kept;
    for (size_t slot = 2 + now->served; slot < STORE_BLOCK_WORDS; slot++)
        image[STORE_BLOCK_WORDS + slot] = 0;
}

/* The points have joined and been served once. */
static void served(void)
{
    fresh();
    for (uint32_t p = 0; p < now->served; p++) {
        if (p > 0)
            must(store_join(image, WORDS, &kept->shared, p, &kept->point) == STORE_DONE);
        store_put(lent.used.heads, lent.used.tables, lent.used.texts, p, &kept->point);
        lent.writes[p] = (store_write){APART * p, now->size};
        memcpy(lent.bytes + now->size * p, text, now->size);
    }
    serve(kept);
    lent.kept = lent.used;
}
#endif

/* ---- The cells. A write of 512 bytes at 0 spans one block, one of 1,024 bytes at 256 three. One of 8 bytes at 504 fills 63 words by copying before its
   text comes; at 4 its first two words have bytes of the text and of the old block. */

static const cell cells[] = {
    {"nothing", fresh, nothing, 0, 0, 1, 0},
    {"fill, 512 B", begun, fill, 0, 512, 64, 0},
    {"fill, a word copied", over, fill, 504, 8, 63, 0},
    {"fill, a word at the text's edge", over, fill, 4, 8, 2, 0},
    {"fill again, a word copied", moved, fill, 504, 8, 63, 0},
    {"commit, 512 B", filled, commit, 0, 512, 1, 0},
    {"catch up, answer Moved", overtaken, move_on, 504, 8, 1, 0},
    {"link a log block", zeroed, link, 0, 8, 1, 0},
    {"open, 1,000 log entries", logged, open, 0, 0, 1, 0},
    {"read 1,024 B", written, read, 0, 1024, 64, 0},
    {"begin, empty, 1 block", fresh, begin, 0, 512, 1, 0},
    {"begin, empty, 3 blocks", fresh, begin, 256, 1024, 1, 0},
    {"begin, checkered, 1 block", checkered, begin, 0, 512, 1, 0},
    {"begin, checkered, 3 blocks", checkered, begin, 256, 1024, 1, 0},
    {"begin, nearly full, free at the start, 1 block", free_at_start, begin, 0, 512, 1, 0},
    {"begin, nearly full, free at the start, 3 blocks", free_at_start, begin, 256, 1024, 1, 0},
    {"begin, nearly full, free at the end, 1 block", free_at_end, begin, 0, 512, 1, 0},
    {"begin, nearly full, free at the end, 3 blocks", free_at_end, begin, 256, 1024, 1, 0},
    {"begin, ordinary, 1 block", ordinary, begin, 0, 512, 1, 0},
    {"begin, ordinary, 3 blocks", ordinary, begin, 256, 1024, 1, 0},
#ifdef SERVING
    {"serve 1 point, 8 B", served, serve, 0, 8, 60, 1},
    {"serve 1 point, 512 B", served, serve, 0, 512, 60, 1},
    {"serve 8 points, 64 B each", served, serve, 0, 64, 6, 8},
    {"serve 30 points, 64 B each", served, serve, 0, 64, 1, 30},
#endif
};

static void put_back(void)
{
#ifdef SERVING
    if (now->served > 0)
        put_back_lists();
#endif
    for (size_t c = 0; c < COPIES; c++)
        memory.copies[c] = *kept;
}

static const char *set_up(size_t i)
{
    now = &cells[i];
    for (size_t k = 0; k < sizeof memory.text; k++)
        text[k] = (uint8_t)(k % 255 + 1);
    now->make();
    put_back();
    return now->name;
}

static size_t work(void)
{
    size_t copies = now->served > 0 ? 1 : COPIES;
    for (size_t c = 0; c < copies; c++)
        for (size_t round = 0; round < now->rounds; round++)
            now->call(&memory.copies[c]);
    return now->rounds * copies;
}

/* Not a jump into the call but a call, so that callgrind sees both. */
static __attribute__((noinline, noclone)) void measured_call(records *r)
{
    now->call(r);
    __asm__ volatile("");
}

static void call_once(void)
{
    measured_call(&memory.copies[0]);
}

const side library = {sizeof cells / sizeof cells[0], set_up, put_back, work, call_once};
