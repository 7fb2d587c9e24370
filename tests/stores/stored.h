/* Which word a step has stored, by the records: from what it answered and the point's numbers before it and after it. */
#ifndef STORED_H
#define STORED_H

#include "store.h"

/* Whether an answer of a step says that a word was stored. */
static inline int has_stored(store_answer answer)
{
    return answer.kind == STORE_STORED || answer.kind == STORE_COMMITTED;
}

/* The word of the image, never its first. */
static inline size_t stored_word(store_answer answer, const store_head *before, const store_head *after)
{
    if (answer.kind == STORE_COMMITTED)
        return (size_t)STORE_BLOCK_WORDS * before->block + before->slot;
    if (before->phase != STORE_ZEROING)
        return (size_t)STORE_BLOCK_WORDS * before->run + after->position - 1;
    if (before->position < STORE_BLOCK_WORDS)
        return (size_t)STORE_BLOCK_WORDS * before->zeroing + before->position;
    return (size_t)STORE_BLOCK_WORDS * before->block;
}

#endif
