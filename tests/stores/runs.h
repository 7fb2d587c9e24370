/* Images made by hand, and the runs of calls. */
#ifndef RUNS_H
#define RUNS_H

#include "calls.h"

/* The word that maps `count` blocks of the file, from `v` on, to blocks of the image, from `b` on; `used` bytes of the last. */
uint64_t entry(size_t v, size_t b, size_t count, size_t used);

/* Lends a laid-out image. */
void lend_empty(size_t blocks, size_t shift);

/* Lends an image with a chain of so many log blocks, all full but the last, which has `last` entries. They map blocks 0 and 1 of the file to
   blocks 2 and 3, over and over; the log blocks are 1, 4, 5 and so on. */
void lend_chain(size_t blocks, size_t shift, size_t chained, size_t last);

/* Opens the image, and the first `count` points join, numbered from `number` on. Answers opening's refusal. */
uint32_t start(size_t count, uint32_t number);

/* Steps until the write or read is done, but at most so often. Answers the last step's answer. */
store_answer steps(store_point *point, size_t most);

/* Serves the first n points by writes of so many bytes from `offset` on, each `apart` bytes behind the one before. */
uint32_t serve_all(size_t n, size_t offset, size_t apart, size_t size);

/* The runs. The short one makes each call and prints what memory holds then. */
void run_short(void);
void run_honest(void);
void run_directed(void);
void run_hostile(size_t runs);

/* Lists that are served: honest ones, the largest of `all` points, and hostile ones. */
void run_served(size_t runs, size_t all);
void serve_short(void);

#endif
