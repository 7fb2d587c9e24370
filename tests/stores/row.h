/* The row of beginnings and steps that serving a list is, made one by one on copies of all that serving is lent; and what it stores, in order. */
#ifndef ROW_H
#define ROW_H

#include <string.h>

#include "store.h"

enum { ROW_WORDS = 1030 * STORE_BLOCK_WORDS, ROW_STORES = 140000 };

struct row {
    uint64_t image[ROW_WORDS];
    store_shared shared;
    store_point points[STORE_POINTS];
    store_served answers[STORE_POINTS];
    size_t filling, zeroing; /* how many points at most filled a run of several blocks, and zeroed a log block, in one round */
    int both;                /* whether in some round one filled and another zeroed */
    size_t count;            /* of stores */
    struct {
        size_t word;
        uint64_t value;
    } stores[ROW_STORES];
};

static inline int goes_on(store_served answer)
{
    return answer.kind != STORE_COMMITTED && answer.kind != STORE_REFUSED;
}

/* Whether a step that stores fills a run of several blocks, by the head before it. */
static inline int fills_several(const store_head *head)
{
    return head->phase == STORE_FILLING && head->offset % (8 * STORE_BLOCK_WORDS) + head->size > 8 * STORE_BLOCK_WORDS;
}

/* Makes the row of n points; image, shared record and points are there. */
static inline void make_row(struct row *made, size_t length, size_t n, const store_write *writes, const uint8_t *bytes)
{
    uint8_t room[STORE_TEXT_MOST];
    made->count = made->filling = made->zeroing = 0;
    made->both = 0;
    for (size_t i = 0; i < n; bytes += writes[i++].size) {
        uint32_t why = store_begin(made->image, length, &made->shared, &made->points[i], writes[i].offset, bytes, writes[i].size);
        made->answers[i].kind = why ? STORE_REFUSED : 0;
        made->answers[i].value = why;
    }
    for (size_t round = 0; round < 129 * (n - 1) + 260; round++) {
        size_t filling = 0, zeroing = 0;
        for (size_t i = 0; i < n; i++) {
            if (!goes_on(made->answers[i]))
                continue;
            store_head before = made->points[i].head;
            store_answer answer = store_step(made->image, length, &made->shared, &made->points[i], room);
            made->answers[i].kind = answer.kind;
            made->answers[i].value = answer.value;
            filling += answer.kind == STORE_STORED && fills_several(&before);
            zeroing += answer.kind == STORE_STORED && before.phase == STORE_ZEROING;
            if (answer.word != 0 && made->count < ROW_STORES) {
                made->stores[made->count].word = answer.word;
                made->stores[made->count++].value = made->image[answer.word];
            }
        }
        made->filling = filling > made->filling ? filling : made->filling;
        made->zeroing = zeroing > made->zeroing ? zeroing : made->zeroing;
        made->both |= filling > 0 && zeroing > 0;
    }
}

#endif
