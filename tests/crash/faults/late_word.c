/* The entry is stored before the last word of the run: that word follows in the next call, of whichever point. */
#include "faulty.h"

/* What belongs into the last word of a point's run, while it is not there. */
static struct {
    int held;
    uint64_t value;
} last[STORE_POINTS];

static uint64_t old;        /* the last word of the run, before the step */
static uint64_t *late;      /* that of a run that is committed, where it is still to be stored */
static uint64_t late_value;

/* Where the point's run ends. */
static uint64_t *last_word(uint64_t *image, const store_head *point)
{
    return image + STORE_BLOCK_WORDS * point->run + run_words(point) - 1;
}

void before_call(uint64_t *image, const store_head *point)
{
    if (late)
        *late = late_value;
    late = 0;
    if (point->phase != STORE_IDLE)
        old = *last_word(image, point);
}

void after_call(uint64_t *image, const store_head *before, const store_head *after, uint32_t kind)
{
    uint32_t p = before->number;
    if (kind == STORE_STORED && before->phase != STORE_ZEROING && after->position == run_words(before)) {
        last[p].held = 1;
        last[p].value = *last_word(image, before);
        *last_word(image, before) = old;
    }
    if (kind == STORE_COMMITTED && last[p].held) {
        late = last_word(image, before);
        late_value = last[p].value;
    }
    if (after->phase == STORE_IDLE)
        last[p].held = 0;
}
