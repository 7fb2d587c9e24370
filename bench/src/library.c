/* The loops that call the library, as a C program writes them. Records are lent as memory of the caller; Rust sees only their sizes. */
#include <cpuid.h>
#include <string.h>

#include "store.h"

size_t bench_shared_size(void) { return sizeof(store_shared); }
size_t bench_point_size(void) { return sizeof(store_point); }

uint32_t bench_lay_out(uint64_t *image, size_t words) { return store_lay_out(image, words); }

/* Opens; the refusal or 0, and the count of log entries. */
uint32_t bench_open(const uint64_t *image, size_t words, uint16_t *scratch, store_shared *shared, uint32_t *entries)
{
    store_opened opened = store_open(image, words, scratch, 1024, shared);
    *entries = opened.entries;
    return opened.refused;
}

uint32_t bench_join(const uint64_t *image, size_t words, store_shared *shared, store_point *points, uint32_t number)
{
    return store_join(image, words, shared, number, &points[number]);
}

uint32_t bench_leave(const uint64_t *image, size_t words, store_shared *shared, store_point *points, uint32_t number)
{
    return store_leave(image, words, shared, &points[number]);
}

uint32_t bench_begin(const uint64_t *image, size_t words, store_shared *shared, store_point *points, uint32_t number,
                     size_t offset, const uint8_t *text, size_t length)
{
    return store_begin(image, words, shared, &points[number], offset, text, length);
}

/* Room for the bytes of a read in steps. */
static uint8_t bytes[STORE_TEXT_MOST];

/* One step: the kind of its answer. */
uint32_t bench_step(uint64_t *image, size_t words, store_shared *shared, store_point *points, uint32_t number)
{
    return store_step(image, words, shared, &points[number], bytes).kind;
}

void bench_rewind(store_point *points, uint32_t number) { points[number].head.position = 0; }

void bench_map(const store_shared *shared, uint64_t map[16]) { memcpy(map, shared->taken, sizeof shared->taken); }

/* The point is idle, as if it had begun nothing, and the map is that one. */
void bench_put_back(store_shared *shared, store_point *points, uint32_t number, const uint64_t map[16])
{
    memcpy(shared->taken, map, sizeof shared->taken);
    points[number].head.phase = STORE_IDLE;
}

/* The 64 fills of a write of a whole block, that many times; 0, or 1 when a step did not store. */
uint32_t bench_fill_block(uint64_t *image, size_t words, store_shared *shared, store_point *points, size_t times)
{
    for (size_t i = 0; i < times; i++) {
        points[0].head.position = 0;
        for (size_t w = 0; w < 64; w++)
            if (store_step(image, words, shared, &points[0], bytes).kind != 1)
                return 1;
    }
    return 0;
}

/* How a stored word is made lasting before the next call: not at all, or its line is written back by that instruction and fenced. */
enum { PLAIN, CLFLUSH, CLFLUSHOPT, CLWB };

/* The last of these that the processor has. */
uint32_t bench_write_back(void)
{
    unsigned a, b, c, d;
    if (!__get_cpuid_count(7, 0, &a, &b, &c, &d))
        return CLFLUSH;
    return b & bit_CLWB ? CLWB : b & bit_CLFLUSHOPT ? CLFLUSHOPT : CLFLUSH;
}

static inline void make_lasting(uint64_t *word, uint32_t how)
{
    if (how == CLWB)
        __asm__ volatile("clwb %0" : "+m"(*word));
    else if (how == CLFLUSHOPT)
        __asm__ volatile("clflushopt %0" : "+m"(*word));
    else
        __asm__ volatile("clflush %0" : "+m"(*word));
    __asm__ volatile("sfence" : : : "memory");
}

static inline __attribute__((always_inline)) uint32_t turns(uint64_t *image, size_t words, store_shared *shared, store_point *points,
                                                            size_t first, size_t count, const uint8_t *text, size_t length,
                                                            uint64_t tally[8], const uint32_t how)
{
    size_t under_way = count;
    for (size_t p = first; p < first + count; p++)
        if (store_begin(image, words, shared, &points[p], 4096 * p, text, length) != 0)
            return 1;
    while (under_way > 0)
        for (size_t p = first; p < first + count; p++) {
            if (points[p].head.phase == 0)
                continue;
            store_answer answer = store_step(image, words, shared, &points[p], bytes);
            if (how != PLAIN && answer.word != 0)
                make_lasting(&image[answer.word], how);
            tally[answer.kind]++;
            if (answer.kind == 5)
                return 1;
            under_way -= answer.kind == 4;
        }
    return 0;
}

/* Points from first on begin, each at 4,096 times its number, then take one step each in turn until all have committed.
   The tally counts answers by kind. 0, or 1 when a call was refused. */
uint32_t bench_turns(uint64_t *image, size_t words, store_shared *shared, store_point *points, size_t first, size_t count,
                     const uint8_t *text, size_t length, uint64_t tally[8], uint32_t how)
{
    switch (how) {
    case PLAIN:
        return turns(image, words, shared, points, first, count, text, length, tally, PLAIN);
    case CLWB:
        return turns(image, words, shared, points, first, count, text, length, tally, CLWB);
    case CLFLUSHOPT:
        return turns(image, words, shared, points, first, count, text, length, tally, CLFLUSHOPT);
    default:
        return turns(image, words, shared, points, first, count, text, length, tally, CLFLUSH);
    }
}

uint32_t bench_begin_read(const uint64_t *image, size_t words, store_shared *shared, store_point *points, uint32_t number,
                          size_t offset, size_t length)
{
    return store_begin_read(image, words, shared, &points[number], offset, length);
}

/* A read in steps into a buffer of 1,024 bytes, from its beginning to its bytes: 0, or 1 when a call was refused. */
uint32_t bench_read_in_steps(uint64_t *image, size_t words, store_shared *shared, store_point *points, uint32_t number,
                             size_t offset, uint8_t *buffer, size_t length)
{
    uint32_t kind;
    if (store_begin_read(image, words, shared, &points[number], offset, length) != STORE_DONE)
        return 1;
    do
        kind = store_step(image, words, shared, &points[number], buffer).kind;
    while (kind == STORE_COPIED || kind == STORE_MOVED);
    return kind != STORE_BYTES;
}

/* Reads: the refusal or 0, and the count of bytes. */
uint32_t bench_read(const uint64_t *image, size_t words, const store_shared *shared, const store_point *points, uint32_t number,
                    size_t offset, uint8_t *buffer, size_t length, uint32_t *count)
{
    store_count answer = store_read(image, words, shared, &points[number], offset, buffer, length);
    *count = answer.count;
    return answer.refused;
}

/* What serving is lent beside the image and the shared record, each list at a cache line. */
typedef struct lists {
    __attribute__((aligned(64))) store_head heads[STORE_POINTS];
    __attribute__((aligned(64))) uint16_t tables[STORE_POINTS][STORE_VIRTUAL_BLOCKS];
    __attribute__((aligned(64))) uint8_t texts[STORE_POINTS][STORE_TEXT_MOST];
    __attribute__((aligned(64))) store_served answers[STORE_POINTS];
    __attribute__((aligned(64))) store_write writes[STORE_POINTS];
} lists;

size_t bench_lists_size(void) { return sizeof(lists); }

/* The first so many points are listed, each with a write of so many bytes at 4,096 times its number. */
void bench_list(lists *l, const store_point *points, size_t count, size_t length)
{
    for (size_t p = 0; p < count; p++) {
        store_put(l->heads, l->tables, l->texts, p, &points[p]);
        l->writes[p] = (store_write){4096 * p, length};
    }
}

/* Serves the first so many points, whose writes have so many bytes together. 0, or 1 when the call or a write was refused. */
uint32_t bench_serve(uint64_t *image, size_t words, store_shared *shared, lists *l, size_t count, const uint8_t *text, size_t length)
{
    if (store_serve(image, words, shared, l->heads, count, l->tables, count, l->texts, count, l->answers, count, l->writes, count, text,
                    length) != STORE_DONE)
        return 1;
    for (size_t p = 0; p < count; p++)
        if (l->answers[p].kind != STORE_COMMITTED)
            return 1;
    return 0;
}
