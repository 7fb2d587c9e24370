/* A block is linked into the chain before it is zeroed. The honest calls that look at the log do not see the link before its time. */
#include "faulty.h"

static uint64_t *early; /* word 0 of the last log block, while it leads to a block that is being zeroed */
static uint64_t next;   /* that block */

/* Whether the point's next call may look at the log: every one but a step that fills a word for the first time, or zeroes one. */
static int looks_at_log(const store_head *point)
{
    uint32_t words = point->phase == STORE_FILLING ? run_words(point) : point->phase == STORE_ZEROING ? STORE_BLOCK_WORDS : 0;
    return point->position >= words;
}

void before_call(uint64_t *image, const store_head *point)
{
    (void)image;
    if (early && looks_at_log(point))
        *early = 0;
}

void after_call(uint64_t *image, const store_head *before, const store_head *after, uint32_t kind)
{
    if (early && looks_at_log(before) && *early != 0)
        early = 0; /* linked in earnest by now */
    if (!early && kind == STORE_EXTENDING) {
        early = image + STORE_BLOCK_WORDS * after->block;
        next = after->zeroing;
    }
    if (early)
        *early = next;
}
