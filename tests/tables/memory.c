/* The memory that a controller needs: records and scratch for so many points, image blocks for what they write. */
#include <stdio.h>
#include "store.h"

enum { ENTRIES = STORE_BLOCK_WORDS - 2, LOG_BLOCKS = 64, BLOCK = 8 * STORE_BLOCK_WORDS, EACH = 100, READING = 32 };

static void cell(size_t n)
{
    printf(" %zu |", n);
}

static size_t blocks_needed(size_t log_blocks, size_t file_blocks, size_t points)
{
    return 1 + log_blocks + file_blocks + 2 * points;
}

int main(void)
{
    static const size_t sizes[] = {8, 12, 16, 24, 32}, images[] = {64, 256, STORE_BLOCKS_MOST};
    printf("| points | shared record | points' records | scratch | these together | image of 64 blocks | of 256 blocks | of 1,024 blocks |\n");
    printf("|---|---|---|---|---|---|---|---|\n");
    for (size_t i = 0; i < sizeof sizes / sizeof sizes[0]; i++) {
        size_t records = sizes[i] * sizeof(store_point), scratch = STORE_SCRATCH * sizeof(uint16_t);
        printf("|");
        cell(sizes[i]);
        cell(sizeof(store_shared));
        cell(records);
        cell(scratch);
        cell(sizeof(store_shared) + records + scratch);
        for (size_t k = 0; k < sizeof images / sizeof images[0]; k++)
            cell(images[k] * BLOCK);
        printf("\n");
    }
    printf("\n| points | all writes until the log is full | of each point | blocks of the file for each point | image blocks for %d readings of"
           " %d bytes each | image blocks for any file |\n", (int)EACH, (int)READING);
    printf("|---|---|---|---|---|---|\n");
    for (size_t i = 0; i < sizeof sizes / sizeof sizes[0]; i++) {
        size_t points = sizes[i], writes = EACH * points;
        printf("|");
        cell(points);
        cell(LOG_BLOCKS * ENTRIES);
        cell(LOG_BLOCKS * ENTRIES / points);
        cell(STORE_VIRTUAL_BLOCKS / points);
        cell(blocks_needed(writes / ENTRIES + 1, (writes * READING + BLOCK - 1) / BLOCK, points));
        cell(blocks_needed(LOG_BLOCKS, STORE_VIRTUAL_BLOCKS, points));
        printf("\n");
    }
    return 0;
}
