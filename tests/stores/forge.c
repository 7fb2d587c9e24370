#include "runs.h"

enum { SLOTS = 62, FIRST_SLOT = 2 };
static const uint64_t superblock_mark = UINT64_C(0x4D494C4B31);

uint64_t entry(size_t v, size_t b, size_t count, size_t used)
{
    return (uint64_t)v | (uint64_t)b << 16 | (uint64_t)count << 32 | (uint64_t)used << 40;
}

void lend_empty(size_t blocks, size_t shift)
{
    lend(blocks, shift);
    lay_out();
}

/* Writes log block `block` with so many entries and the next index. */
static void put_log_block(size_t block, size_t next, size_t entries)
{
    uint64_t *log = image + STORE_BLOCK_WORDS * block;
    log[0] = next;
    log[1] = 0;
    for (size_t i = 0; i < SLOTS; i++)
        log[FIRST_SLOT + i] = i < entries ? entry(i % 2, 2 + i % 2, 1, BLOCK_BYTES) : 0;
}

void lend_chain(size_t blocks, size_t shift, size_t chained, size_t last)
{
    lend(blocks, shift);
    for (size_t w = 0; w < STORE_BLOCK_WORDS; w++)
        image[w] = 0;
    image[0] = superblock_mark;
    image[1] = 1;
    for (size_t i = 0; i < chained; i++) {
        size_t is_last = i + 1 == chained;
        put_log_block(i == 0 ? 1 : i + 3, is_last ? 0 : i + 4, is_last ? last : SLOTS);
    }
}

uint32_t start(size_t count, uint32_t number)
{
    uint32_t refused = open_image(STORE_SCRATCH);
    for (size_t p = 0; p < count; p++)
        join(number + (uint32_t)p, &points[p]);
    return refused;
}

store_answer steps(store_point *point, size_t most)
{
    store_answer answer = {STORE_REFUSED, 0, 0};
    for (size_t i = 0; i < most; i++) {
        answer = step(point);
        if (answer.kind == STORE_COMMITTED || answer.kind == STORE_REFUSED || answer.kind == STORE_BYTES)
            break;
    }
    return answer;
}
