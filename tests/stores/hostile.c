/* Hostile runs: words of the image, fields of the records and arguments become anything, then any call is made. */
#include "runs.h"

enum { ACTS = 48, HEAD = sizeof(store_head) / sizeof(uint32_t) }; /* of a run; numbers of a head */

/* A number at or beside the edge of some range, or any. */
static uint32_t a_number(void)
{
    static const uint32_t edges[] = {0, 1, 2, 5, 6, 7, 31, 32, 63, 64, 65, 128, 192, 512, 1024, 65535, 65536, 131072, UINT32_MAX};
    switch (below(4)) {
    case 0:
        return (uint32_t)any();
    case 1:
        return (uint32_t)(words / STORE_BLOCK_WORDS) + (uint32_t)below(3) - 1;
    case 2:
        return 1 + (uint32_t)below(8);
    default:
        return edges[below(sizeof edges / sizeof *edges)];
    }
}

/* A word for the image: any, a small number, an entry of the log, or one with a bit turned. */
static uint64_t a_word(void)
{
    size_t count = 1 + below(3);
    uint64_t lawful = entry(below(8), 1 + below(words / STORE_BLOCK_WORDS - count), count, 1 + below(512));
    switch (below(5)) {
    case 0:
        return any();
    case 1:
        return a_number();
    case 2:
        return lawful ^ UINT64_C(1) << below(64);
    case 3:
        return 0;
    default:
        return lawful;
    }
}

/* A word of the image: where a point stands in the log, beside it, the beginning of a log block, of the superblock, or any. */
static size_t a_place(const store_head *head)
{
    size_t block = head->block < words / STORE_BLOCK_WORDS ? head->block : 1;
    switch (below(5)) {
    case 0:
        return below(words);
    case 1:
        return below(3);
    case 2:
        return STORE_BLOCK_WORDS * block;
    default:
        return STORE_BLOCK_WORDS * block + (head->slot < STORE_BLOCK_WORDS ? head->slot : below(STORE_BLOCK_WORDS));
    }
}

static void alter_shared(void)
{
    switch (below(7)) {
    case 0:
        shared.blocks = a_number();
        break;
    case 1:
        shared.joined = (uint32_t)any();
        break;
    case 2:
        shared.chain = below(2) ? a_number() : 62 + (uint32_t)below(4);
        break;
    case 3:
    case 4:
        shared.reports[below(STORE_POINTS)] = (uint32_t)(below(2) ? a_number() : below(words / STORE_BLOCK_WORDS + 1));
        break;
    default:
        shared.taken[below(16)] = below(3) ? any() : UINT64_MAX;
        break;
    }
}

/* A write or a read that nobody began. Mostly its numbers fit. */
static void alter_write(store_head *head)
{
    size_t blocks = words / STORE_BLOCK_WORDS;
    head->offset = (uint32_t)below(131072);
    head->size = 1 + (uint32_t)below(1024);
    head->phase = 1 + (uint32_t)below(6);
    uint32_t spanned = (head->offset + head->size - 1) / BLOCK_BYTES - head->offset / BLOCK_BYTES + 1;
    uint32_t touched = (head->offset + head->size - 1) / 8 - head->offset / 8 + 1;
    uint32_t most = head->phase == STORE_READING ? touched : STORE_BLOCK_WORDS * (head->phase == STORE_ZEROING ? 1 : spanned);
    head->run = (uint32_t)(below(8) ? 1 + below(blocks - spanned) : below(blocks));
    head->zeroing = (uint32_t)(below(8) ? 1 + below(blocks - 1) : below(blocks + 1));
    head->position = below(2) ? most : (uint32_t)below(most + 2);
    if (head->phase == STORE_ZEROING || below(4) == 0)
        head->slot = STORE_BLOCK_WORDS;
}

/* One alteration of the point's record, of its numbers, its table or its text. */
static void alter_point(store_point *point)
{
    uint32_t *numbers = (uint32_t *)&point->head;
    switch (below(12)) {
    case 0:
        point->table[below(256)] = (uint16_t)a_number();
        break;
    case 1:
        for (size_t i = 0; i < 8; i++)
            point->table[i] = (uint16_t)below(words / STORE_BLOCK_WORDS + (i == 7));
        break;
    case 2:
        point->text[below(1024)] ^= 255;
        break;
    case 3:
        for (size_t i = 0; i < HEAD; i++)
            numbers[i] = a_number();
        break;
    case 4:
    case 5:
        numbers[below(HEAD)] = a_number();
        break;
    default:
        alter_write(&point->head);
        break;
    }
}

/* Any call with the point's record, now and then with strange arguments. */
static void call_with(store_point *point)
{
    size_t offset = below(6) ? below(2000) : below(2) ? (size_t)any() : 131072 - below(2000);
    switch (below(13)) {
    case 0:
        begin(point, offset, below(TEXT_BYTES));
        break;
    case 12:
        begin_read(point, offset, below(8) ? below(TEXT_BYTES) : (size_t)any());
        break;
    case 1:
        read_file(point, offset, below(ROOM));
        break;
    case 2:
        look(point, below(4) ? below(8) : offset);
        break;
    case 3:
        leave(point);
        break;
    case 4:
        join(below(4) ? (uint32_t)below(33) : a_number(), point);
        break;
    case 5:
        if (below(3) == 0)
            open_image(STORE_SCRATCH + 8 * below(2));
        else if (below(4) == 0)
            list(STORE_SCRATCH - below(2));
        break;
    default:
        steps(point, 1 + below(8));
        break;
    }
}

/* Some calls with the image lent too short or too long. */
static void call_with_length(store_point *point)
{
    size_t usual = words;
    words = below(2) ? STORE_BLOCK_WORDS * below(1030) : usual - 1 + below(3);
    call_with(point);
    if (below(8) == 0)
        open_image(STORE_SCRATCH);
    words = usual;
}

/* Alters something, makes some calls, and mostly puts back what was there: else all would be refused from then on. */
static void act(void)
{
    store_point *point = &points[below(POINTS)];
    if (point->head.phase == STORE_IDLE && below(3))
        alter_write(&point->head);
    store_point point_before = *point;
    store_shared shared_before = shared;
    size_t place = a_place(&point->head);
    uint64_t word_before = image[place];
    size_t what = below(8);
    if (what < 2)
        image[place] = a_word();
    else if (what < 3)
        alter_shared();
    else if (what < 7)
        alter_point(point);
    if (what == 7)
        call_with_length(point);
    for (size_t i = 1 + below(3); i > 0; i--)
        call_with(point);
    if (below(6) || shared.blocks != shared_before.blocks) {
        *point = point_before;
        shared = shared_before;
        image[place] = word_before;
    }
}

/* An image with nothing in it, or with a chain whose last block is nearly full, or with any words in it. */
static void lend_any(void)
{
    size_t blocks = 4 + below(12), shift = below(SHIFTS), kind = below(6);
    if (kind < 2)
        lend_empty(blocks, shift);
    else if (kind < 5)
        lend_chain(blocks, shift, 1, below(8) + (below(2) ? 55 : 0));
    else
        lend_chain(blocks + 4, shift, 2 + below(2), below(63));
    for (size_t i = below(4) ? 0 : below(6); i > 0; i--)
        image[below(words)] = a_word();
}

void run_hostile(size_t runs)
{
    for (size_t i = 0; i < runs; i++) {
        do
            lend_any();
        while (start(POINTS, (uint32_t)below(STORE_POINTS - POINTS)) != STORE_DONE);
        for (size_t p = 0; p < POINTS; p++)
            if (below(3))
                begin(&points[p], below(2000), 1 + below(1024));
            else if (below(2))
                begin_read(&points[p], below(2000), 1 + below(1024));
        for (size_t n = 0; n < ACTS; n++)
            act();
    }
}
