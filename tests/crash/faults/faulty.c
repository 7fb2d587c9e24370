/* Both calls over the honest ones, whose names begin with honest_ in a copy of the library. */
#include "faulty.h"

__typeof__(store_begin) honest_store_begin;
__typeof__(store_step) honest_store_step;

uint32_t run_words(const store_head *point)
{
    return STORE_BLOCK_WORDS * ((point->offset % 512 + point->size + 511) / 512);
}

uint32_t store_begin(const uint64_t *image, size_t words, store_shared *shared, store_point *point, size_t offset, const uint8_t *bytes, size_t size)
{
    uint64_t *stored = (uint64_t *)(uintptr_t)image;
    store_head before = point->head;
    before_call(stored, &before);
    uint32_t refused = honest_store_begin(image, words, shared, point, offset, bytes, size);
    after_call(stored, &before, &point->head, 0);
    return refused;
}

store_answer store_step(uint64_t *image, size_t words, store_shared *shared, store_point *point, uint8_t *bytes)
{
    store_head before = point->head;
    before_call(image, &before);
    store_answer answer = honest_store_step(image, words, shared, point, bytes);
    after_call(image, &before, &point->head, answer.kind);
    return answer;
}
