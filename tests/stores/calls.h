/* The calls of store.h with marks before and after, and the memory that they are lent. */
#ifndef CALLS_H
#define CALLS_H

#include "places.h"
#include "store.h"

struct row;

enum { BLOCK_BYTES = 8 * STORE_BLOCK_WORDS, POINTS = 4, TEXT_BYTES = 1200, LIST_BYTES = 36 * 1200, LISTED_MOST = 36, ROOM = 2048 };

extern uint64_t *image;  /* the image that is lent */
extern size_t words;     /* and its length, as the calls are told it */
extern store_shared shared;
extern store_point points[STORE_POINTS];  /* most runs have POINTS of them */

/* The generator: the same seed gives the same numbers. */
void seed_with(uint64_t seed);
uint64_t any(void);
size_t below(size_t limit);

/* Maps the memory at its known addresses; answers 0 if it can't be had there. */
int map_memory(void);

/* From now on an image of so many blocks is lent, `shift` words behind the first place. Its first blocks hold old words, the others zeros. */
void lend(size_t blocks, size_t shift);

/* Says in the trace that all calls have been made. */
void end_trace(void);

/* A number made of all that the calls have left in image and records. */
uint64_t digest(void);

uint32_t lay_out(void);
uint32_t open_image(size_t places);
uint32_t list(size_t places);
uint32_t join(uint32_t number, store_point *point);
uint32_t begin(store_point *point, size_t offset, size_t size);
uint32_t begin_read(store_point *point, size_t offset, size_t size);
store_answer step(store_point *point);
uint32_t leave(const store_point *point);

/* Serves points[first] and those after it, n of them, by these writes; `given` is how many writes are lent, `size` how many bytes, which are the
   generator's. Its row is made on copies before: the call must answer and leave the same. */
uint32_t serve(size_t first, size_t n, const store_write *writes, size_t given, size_t size);

/* What the last such call's row has stored. */
extern struct row last_row;

/* Called before a list is lent, with 1, and after, with 0, if it is there. */
extern void (*watching)(int is_lent);
uint32_t read_file(const store_point *point, size_t offset, size_t room);

/* Locates a block of the file, then views it. Answers locating's refusal. */
uint32_t look(const store_point *point, size_t block);

#endif
