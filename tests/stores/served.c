/* Lists of points that are served by one call. */
#include "runs.h"

enum { LISTS = 3 };    /* of a hostile run */
enum { APART = 4096 }; /* bytes from one point's place to the next */

uint32_t serve_all(size_t n, size_t offset, size_t apart, size_t size)
{
    store_write writes[LISTED_MOST];
    for (size_t i = 0; i < n; i++) {
        writes[i].offset = offset + apart * i;
        writes[i].size = size;
    }
    return serve(0, n, writes, n, n * size);
}

/* Two points meet in one block. */
void serve_short(void)
{
    lend_empty(8, 0);
    start(2, 3);
    serve_all(2, 0, 8, 8);
}

/* 26 and 27: none, too many, not one write for each, sizes that do not add up, one listed twice. */
static void refused_lists(void)
{
    store_write writes[LISTED_MOST] = {{0, 0}};
    lend_empty(12, 1);
    start(3, 0);
    for (size_t i = 0; i < LISTED_MOST; i++)
        writes[i].size = 9;
    serve(0, 0, writes, 0, 0);
    serve(0, 33, writes, 33, 33 * 9);
    serve(0, 3, writes, 2, 18);
    serve(0, 3, writes, 4, 36);
    serve(0, 3, writes, 3, 26);
    points[2].head.number = points[0].head.number;
    serve(0, 3, writes, 3, 27);
    points[0].head.number = points[2].head.number = 77;
    serve(0, 3, writes, 3, 27);
}

/* Lists that meet in a block, race for the link, fill the log, find no block; of one, of some and of `all` points. */
static void honest_lists(size_t all)
{
    lend_empty(40, 2);
    start(5, 20);
    serve_all(5, 500, 3, 20);
    serve_all(1, 0, 0, 1024);
    serve_all(3, 511, 1, 514);
    lend_chain(24, 3, 1, 61);
    start(4, 1);
    serve_all(4, 100, 512, 30);
    lend_chain(20, 0, 2, 60);
    start(4, 9);
    serve_all(4, 100, 4, 30);
    lend_chain(80, 1, 64, 60);
    start(4, 9);
    serve_all(4, 1, 1, 3);
    lend_chain(8, 1, 1, 62);
    start(4, 9);
    serve_all(4, 1, 700, 3);
    lend_empty(80, 1);
    start(all, 0);
    serve_all(all, 0, 512, 8);
}

/* Each of n points writes to a place of its own, its bytes 37 further on than those of the one before, and 300 more, up to 1,024: runs of one to three blocks,
   which end in different rounds. */
static void serve_mixed(size_t n)
{
    store_write writes[LISTED_MOST];
    size_t size = 0;
    for (size_t i = 0; i < n; i++) {
        writes[i].offset = APART * i + 37 * i;
        writes[i].size = 1 + (723 + 300 * i) % STORE_TEXT_MOST;
        size += writes[i].size;
    }
    serve(0, n, writes, n, size);
}

/* Nobody meets another: n points fill two blocks each, three with old bytes at both edges, one of which most is copied; then runs of all lengths. Where the log
   is full all zero a log block; where it has a place left, one zeroes while others fill. */
static void lists_apart(size_t n, size_t shift)
{
    size_t blocks = 16 + 7 * n;
    lend_empty(blocks, shift);
    start(n, 0);
    serve_all(n, 0, APART, 1024);
    serve_all(n, 250, APART, 1024);
    serve_all(n, 3, APART, 8);
    serve_mixed(n);
    lend_chain(blocks, shift, 1, 62);
    start(n, 0);
    serve_all(n, 100, APART, 600);
    lend_chain(blocks, shift, 1, 61);
    start(n, 0);
    serve_mixed(n);
}

/* Some words, fields and arguments become anything, then a list is served. */
static void hostile_list(void)
{
    store_write writes[POINTS];
    size_t size = 0, n = 1 + below(POINTS);
    if (below(3) == 0)
        image[below(4) ? STORE_BLOCK_WORDS + below(STORE_BLOCK_WORDS) : below(words)] = below(2) ? any() : entry(0, 2, 1, 1 + below(512));
    if (below(3) == 0)
        shared.taken[0] = below(2) ? any() : 1;
    if (below(8) == 0)
        shared.chain = 60 + (uint32_t)below(6);
    if (below(4) == 0)
        points[below(POINTS)].head.phase = (uint32_t)below(8);
    if (below(6) == 0)
        points[below(POINTS)].head.slot = 2 + (uint32_t)below(64);
    if (below(8) == 0)
        points[below(POINTS)].head.number = (uint32_t)below(40);
    for (size_t i = 0; i < n; i++) {
        writes[i].offset = below(8) ? below(1200) : below(2) ? (size_t)any() : 131072 - below(600);
        writes[i].size = below(12) ? 1 + below(120) : below(TEXT_BYTES);
        size += writes[i].size;
    }
    size_t usual = words;
    if (below(12) == 0)
        words = below(2) ? words - 1 : STORE_BLOCK_WORDS * below(1030);
    serve(0, n, writes, n, size - (below(16) == 0));
    words = usual;
}

void run_served(size_t runs, size_t all)
{
    refused_lists();
    honest_lists(all);
    lists_apart(1, 0);
    lists_apart(1, 1);
    lists_apart(all, 2);
    for (size_t i = 0; i < runs / 2; i++) {
        size_t blocks = 6 + below(14);
        if (below(2))
            lend_empty(blocks, below(SHIFTS));
        else
            lend_chain(blocks, below(SHIFTS), 1, 55 + below(8));
        if (start(POINTS, (uint32_t)below(STORE_POINTS - POINTS)) != STORE_DONE)
            continue;
        for (size_t k = 0; k < LISTS; k++)
            hostile_list();
    }
}
