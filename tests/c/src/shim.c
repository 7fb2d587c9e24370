/* The calls of store.h as functions, for a program that is not C, and what it takes for granted of the records. */
#define _DEFAULT_SOURCE
#include <sys/mman.h>

#include "store.h"

#define SIZE_IS(type, size, alignment) \
    _Static_assert(sizeof(type) == (size) && _Alignof(type) == (alignment), "the size of " #type)
#define PLACE_IS(type, field, width, place) \
    _Static_assert(offsetof(type, field) == (place) && sizeof(((type *)0)->field) == (width), "the place of " #type "." #field)

SIZE_IS(store_shared, 272, 8);
PLACE_IS(store_shared, blocks, 4, 0);
PLACE_IS(store_shared, joined, 4, 4);
PLACE_IS(store_shared, chain, 4, 8);
PLACE_IS(store_shared, reports, 128, 12);
PLACE_IS(store_shared, taken, 128, 144);

SIZE_IS(store_head, 44, 4);
PLACE_IS(store_head, number, 4, 0);
PLACE_IS(store_head, length, 4, 4);
PLACE_IS(store_head, block, 4, 8);
PLACE_IS(store_head, slot, 4, 12);
PLACE_IS(store_head, offset, 4, 16);
PLACE_IS(store_head, size, 4, 20);
PLACE_IS(store_head, run, 4, 24);
PLACE_IS(store_head, phase, 4, 28);
PLACE_IS(store_head, position, 4, 32);
PLACE_IS(store_head, zeroing, 4, 36);
PLACE_IS(store_head, retries, 4, 40);

SIZE_IS(store_point, 1580, 4);
PLACE_IS(store_point, head, 44, 0);
PLACE_IS(store_point, table, 512, 44);
PLACE_IS(store_point, text, 1024, 556);

SIZE_IS(store_opened, 16, 4);
PLACE_IS(store_opened, refused, 4, 0);
PLACE_IS(store_opened, length, 4, 4);
PLACE_IS(store_opened, entries, 4, 8);
PLACE_IS(store_opened, free, 4, 12);

SIZE_IS(store_answer, 16, 8);
PLACE_IS(store_answer, kind, 4, 0);
PLACE_IS(store_answer, value, 4, 4);
PLACE_IS(store_answer, word, 8, 8);

SIZE_IS(store_count, 8, 4);
PLACE_IS(store_count, refused, 4, 0);
PLACE_IS(store_count, count, 4, 4);

SIZE_IS(store_write, 16, 8);
PLACE_IS(store_write, offset, 8, 0);
PLACE_IS(store_write, size, 8, 8);

SIZE_IS(store_served, 8, 4);
PLACE_IS(store_served, kind, 4, 0);
PLACE_IS(store_served, value, 4, 4);

uint32_t shim_lay_out(uint64_t *image, size_t words)
{
    return store_lay_out(image, words);
}

store_opened shim_open(const uint64_t *image, size_t words, uint16_t *scratch, size_t places, store_shared *shared)
{
    return store_open(image, words, scratch, places, shared);
}

store_opened shim_list(const uint64_t *image, size_t words, uint16_t *scratch, size_t places, uint16_t *rows)
{
    return store_list(image, words, scratch, places, rows);
}

uint32_t shim_join(const uint64_t *image, size_t words, store_shared *shared, uint32_t number, store_point *point)
{
    return store_join(image, words, shared, number, point);
}

uint32_t shim_begin(const uint64_t *image, size_t words, store_shared *shared, store_point *point, size_t offset,
                    const uint8_t *bytes, size_t size)
{
    return store_begin(image, words, shared, point, offset, bytes, size);
}

uint32_t shim_begin_read(const uint64_t *image, size_t words, store_shared *shared, store_point *point, size_t offset, size_t size)
{
    return store_begin_read(image, words, shared, point, offset, size);
}

store_answer shim_step(uint64_t *image, size_t words, store_shared *shared, store_point *point, uint8_t *bytes)
{
    return store_step(image, words, shared, point, bytes);
}

uint32_t shim_serve(uint64_t *image, size_t words, store_shared *shared, store_head *heads, size_t head_count, uint16_t (*tables)[256],
                    size_t table_count, uint8_t (*texts)[1024], size_t text_count, store_served *answers, size_t answer_count,
                    const store_write *writes, size_t write_count, const uint8_t *bytes, size_t size)
{
    return store_serve(image, words, shared, heads, head_count, tables, table_count, texts, text_count, answers, answer_count, writes,
                       write_count, bytes, size);
}

void shim_put(store_head *heads, uint16_t (*tables)[256], uint8_t (*texts)[1024], size_t i, const store_point *point)
{
    store_put(heads, tables, texts, i, point);
}

void shim_get(const store_head *heads, uint16_t (*tables)[256], uint8_t (*texts)[1024], size_t i, store_point *point)
{
    store_get(heads, tables, texts, i, point);
}

uint32_t shim_leave(const uint64_t *image, size_t words, store_shared *shared, const store_point *point)
{
    return store_leave(image, words, shared, point);
}

store_count shim_read(const uint64_t *image, size_t words, const store_shared *shared, const store_point *point, size_t offset,
                      uint8_t *buffer, size_t room)
{
    return store_read(image, words, shared, point, offset, buffer, room);
}

store_count shim_locate(const uint64_t *image, size_t words, const store_shared *shared, const store_point *point, size_t block)
{
    return store_locate(image, words, shared, point, block);
}

const uint64_t *shim_view(const uint64_t *image, size_t words, const store_shared *shared, const store_point *point, size_t block)
{
    return store_view(image, words, shared, point, block);
}

uint32_t shim_behind(const uint64_t *image, size_t words, const store_shared *shared, uint32_t number)
{
    return store_behind(image, words, shared, number);
}

/* Addresses for lengths of more than 32 bits: all zeros, no memory until something is stored. Null where there are none. */
void *shim_reserve(size_t bytes)
{
    void *found = mmap(0, bytes, PROT_READ | PROT_WRITE, MAP_PRIVATE | MAP_ANONYMOUS | MAP_NORESERVE, -1, 0);
    return found == MAP_FAILED ? (void *)0 : found;
}

void shim_release(void *found, size_t bytes)
{
    munmap(found, bytes);
}
