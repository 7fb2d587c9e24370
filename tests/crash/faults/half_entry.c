/* The entry is stored in two halves: the upper one follows in the next call, of whichever point. */
#include "faulty.h"

static uint64_t *half; /* where there is only the lower half of an entry */
static uint64_t whole; /* that entry */

void before_call(uint64_t *image, const store_head *point)
{
    (void)image, (void)point;
    if (half)
        *half = whole;
    half = 0;
}

void after_call(uint64_t *image, const store_head *before, const store_head *after, uint32_t kind)
{
    (void)after;
    if (kind != STORE_COMMITTED)
        return;
    half = image + STORE_BLOCK_WORDS * before->block + before->slot;
    whole = *half;
    *half = (uint32_t)whole;
}
