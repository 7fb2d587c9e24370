/* A faulty library: store_begin and store_step of an honest one, with something done to the image before and after each call. */
#ifndef FAULTY_H
#define FAULTY_H

#include "store.h"

/* The words of the point's run. */
uint32_t run_words(const store_head *point);

/* Before an honest call of the point. */
void before_call(uint64_t *image, const store_head *point);

/* After it: the point's numbers before and after, and what a step answered, 0 where it was a beginning. */
void after_call(uint64_t *image, const store_head *before, const store_head *after, uint32_t kind);

#endif
