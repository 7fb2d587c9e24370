/* A session file for up to 32 points, in memory that survives loss of power eight bytes at a time.

   For C and C++ on x86-64. `include/build` makes the library to link with, crates/c_api/out/libc_api.a, and
   crates/c_serve/out/libc_serve.a for store_serve alone. docs/GUIDE.md shows how firmware uses it; docs/RULES.md says of each call, to the last number, what it answers and
   leaves; docs/FORMAT.md what an image holds.

   What is lent. Each call is lent memory of the caller: the image, and the records beside it. It keeps no pointer, allocates
   nothing, takes no lock, and touches nothing outside what it is lent. The numbers in that memory, in image, records and arguments,
   may be anything: a number that is wrong is refused. What a library can't test is the pointers themselves, so these four things are
   the caller's to keep:
     - a pointer is not null and aligned for its type, also where the length beside it is 0;
     - as many elements as the length says, or the one record, are there to be read, and written where the pointer is not to const;
     - no two pointers of one call overlap;
     - no other thread and no interrupt handler uses that memory while the call runs. Points share one image and one shared record, so
       one call at a time for a file; between two calls anything may happen, loss of power included.

   What is answered. A refusal is the number of the first fault, by name below; 0 is no refusal. A call that is refused leaves image
   and records as they were, a write or a read under way too, with these exceptions: STORE_LOG_FULL and STORE_NO_LOG_BLOCK end the
   write; a refused opening makes a shared record of zeros, a refused joining a point's record of zeros. Only store_lay_out,
   store_step and store_serve write to the image. store_step stores at most one word, in a read none; store_serve stores what its
   steps store, one word after the other: power lost meanwhile is power lost between two of its steps. */

#ifndef STORE_H
#define STORE_H

#include <stddef.h>
#include <stdint.h>

#ifdef __cplusplus
extern "C" {
#endif

/* Sizes. */
enum {
    STORE_BLOCK_WORDS = 64,    /* a block, 512 bytes */
    STORE_BLOCKS_LEAST = 4,    /* an image has so many blocks at least */
    STORE_BLOCKS_MOST = 1024,  /* and at most */
    STORE_SCRATCH = 1024,      /* numbers of a scratch, at least */
    STORE_VIRTUAL_BLOCKS = 256,
    STORE_FILE_MOST = 131072,  /* bytes of a file */
    STORE_TEXT_MOST = 1024,    /* bytes of one write, and of one read in steps */
    STORE_POINTS = 32,         /* points, numbered 0 to 31 */
    STORE_CHAIN_MOST = 64      /* log blocks of a chain */
};

/* The version of this header: it rises when a call, a record or the image changes. A program compares it with what the library that
   it is linked with answers, before any other call: a library of another version may take its records for something else. */
enum { STORE_VERSION = 5 };
uint32_t store_version(void);

/* Why a call is refused; store_reason has a sentence for each. */
enum {
    STORE_DONE = 0,
    STORE_IMAGE_SIZE = 1,
    STORE_SCRATCH_SHORT = 2,
    STORE_SUPERBLOCK_WRONG = 3,
    STORE_LOG_INDEX_OUTSIDE = 4,
    STORE_CHAIN_ENDLESS = 5,
    STORE_LOG_BLOCK_WRONG = 6,
    STORE_ENTRY_WRONG = 7,
    STORE_BLOCK_SHARED = 8,
    STORE_END_NOT_ZERO = 9,
    STORE_SHARED_UNFIT = 10,
    STORE_RECORD_UNFIT = 11,
    STORE_NUMBER_ABOVE = 12,
    STORE_ALREADY_JOINED = 13,
    STORE_NOT_JOINED = 14,
    STORE_WRONG_PHASE = 15,
    STORE_TEXT_SIZE = 16,
    STORE_PAST_END = 17,
    STORE_LOG_BROKEN = 18,
    STORE_NO_RUN = 19,
    STORE_LOG_FULL = 20,
    STORE_NO_LOG_BLOCK = 21,
    STORE_NOT_MAPPED = 22,
    STORE_NOT_ONE_EACH = 26, /* 23 to 25 are no refusal's */
    STORE_LISTED_TWICE = 27
};

/* A sentence for a refusal's number. The sentences are part of the program that calls this, not of the library. */
static inline const char *store_reason(uint32_t number)
{
    static const char *const reasons[] = {
        "not refused",
        "the image is no multiple of 64 words, or not 4 to 1,024 blocks long",
        "the scratch is shorter than 1,024 numbers",
        "the superblock has a wrong mark, or a word after word 1 that is not 0",
        "the first log index is 0, or an index of the log chain lies outside the image",
        "the log chain has not ended after 64 log blocks",
        "a log block has a word 1 that is not 0, an entry after an empty one, or a next index though it is not full",
        "an entry of the log breaks the rules of entries",
        "two blocks of the file share a block of the image, or one is a log block",
        "a byte at or past the file's end in its last block is not 0",
        "the shared record does not fit: its block count the image, its chain length 1 to 64, or a reported block the block count",
        "the point's record does not fit: a number of it lies outside its range, phase and retries too",
        "the point number is above 31",
        "the point is joined already",
        "the point is not joined",
        "a write or a read was begun with one under way, or a step made with none",
        "the text, or the range to be read, has 0 or more than 1,024 bytes",
        "the write, or the range to be read, ends past byte 131,072, or the block asked for is above 255",
        "the log, read on, has a wrong entry or index, or more log blocks than the image has blocks",
        "no run of so many free blocks",
        "one more log block is needed and 64 are chained; the write is ended",
        "a log block is needed and none is free; the write is ended",
        "nothing is mapped there",
        "no number of a refusal", /* 23, 24 and 25 are not in use */
        "no number of a refusal",
        "no number of a refusal",
        "no points are listed, more than 32, or not one write, with its room, for each",
        "a point is listed twice",
    };
    return number < sizeof reasons / sizeof reasons[0] ? reasons[number] : "no number of a refusal";
}

/* What a step answers. */
enum {
    STORE_STORED = 1,     /* one word of the image was stored; step again */
    STORE_MOVED = 2,      /* others came first, nothing was stored; a read is copied anew; step again */
    STORE_EXTENDING = 3,  /* a block was taken for the log; step again */
    STORE_COMMITTED = 4,  /* the write is real; the value is how often it was moved */
    STORE_REFUSED = 5,    /* the value says why */
    STORE_COPIED = 6,     /* one word of the file was copied into the point's record; step again */
    STORE_BYTES = 7       /* the read is done; the value is how many bytes it has */
};

/* What a point is doing. */
enum {
    STORE_IDLE = 0,
    STORE_FILLING = 1,
    STORE_REFILL_FIRST = 2,
    STORE_REFILL_LAST = 3,
    STORE_REFILL_BOTH = 4,
    STORE_ZEROING = 5,
    STORE_READING = 6
};

/* The shared record of an opened image: one for all points. Opening makes it; loss of power may take it. */
typedef struct store_shared {
    uint32_t blocks;       /* the image's blocks */
    uint32_t joined;       /* a bit for each point that is joined */
    uint32_t chain;        /* the log blocks of the chain, 1 to 64 */
    uint32_t reports[32];  /* the log block in which each point stands, 0 for one that is not joined */
    uint64_t taken[16];    /* a bit for each block that is taken */
} store_shared;

/* The numbers of a point's record. */
typedef struct store_head {
    uint32_t number;           /* 0 to 31 */
    uint32_t length;           /* the file's, as the point knows it */
    uint32_t block, slot;      /* where it stands in the log */
    uint32_t offset, size;     /* its write or read: from which byte of the file, and how many */
    uint32_t run;              /* the first of the blocks that are being filled */
    uint32_t phase, position;  /* what it is doing, one of the seven above, and at which word */
    uint32_t zeroing;          /* the log block being zeroed */
    uint32_t retries;          /* how often the write was moved, at most 65,535 */
} store_head;

/* A point's record: one for each point. Joining makes it; loss of power may take it. */
typedef struct store_point {
    store_head head;
    uint16_t table[256];  /* the block of the image for each block of the file, 0 for none */
    uint8_t text[1024];   /* of its write, or what its read has copied */
} store_point;

/* What opening answers: the refusal, the file's length, and the counts of log entries and of free blocks. */
typedef struct store_opened {
    uint32_t refused, length, entries, free;
} store_opened;

/* What a step answers: one of the seven; its value, 0 where none is named there; and which word of the image it stored, 0 for none: a
   step never stores word 0. Where the image is cached, image[word] is what has to be written back. */
typedef struct store_answer {
    uint32_t kind, value;
    size_t word;
} store_answer;

/* A write of a list, for store_serve: at which byte of the file it begins, and how many bytes of the text it has. */
typedef struct store_write {
    size_t offset, size;
} store_write;

/* What serving answers for a point: what its last beginning or step answered. After the call STORE_COMMITTED, its value as a step's; or
   STORE_REFUSED, the value says why. Another kind only with numbers that no call left: the write is still under way then. */
typedef struct store_served {
    uint32_t kind, value;
} store_served;

/* What reading and locating answer. */
typedef struct store_count {
    uint32_t refused, count;
} store_count;

/* The library takes the records as structs of arrays: each part stands at its place, the numbers side by side from the beginning on. */
typedef char store_records_stand_so[offsetof(store_shared, joined) == 4 && offsetof(store_shared, chain) == 8 &&
                                            offsetof(store_shared, reports) == 12 && offsetof(store_shared, taken) == 144 &&
                                            sizeof(store_shared) == 272 && sizeof(store_head) == 44 &&
                                            offsetof(store_point, table) == 44 && offsetof(store_point, text) == 556 &&
                                            sizeof(store_point) == 1580 && offsetof(store_answer, word) == 8 &&
                                            sizeof(store_answer) == 16 && sizeof(size_t) == 8 &&
                                            offsetof(store_write, size) == 8 && sizeof(store_write) == 16 &&
                                            offsetof(store_served, value) == 4 && sizeof(store_served) == 8
                                        ? 1
                                        : -1];

/* ---- The calls. */

/* Lays out an empty file: writes the superblock and empties block 1, and touches no other block. What the image held is no longer a
   file. It makes many stores: power lost meanwhile may leave anything.
   Lent: the image. Answers 0, or 1. */
uint32_t store_lay_out(uint64_t *image, size_t words);

/* Opens an image, for a first time or after loss of power: there is nothing to repair. No point is joined then.
   Lent: the image; a scratch of at least 1,024 numbers; and memory for the shared record, which is made. Afterwards the scratch says
   of each block b what it is: 65,535 for the superblock and log blocks, one more than its block of the file where it is the file's,
   else 0. Refused by 1 to 7 it leaves the scratch as it was, by 8 and 9 zeros in its first 1,024 places.
   Refusals: 1 to 9; then *shared is all zeros, which every later call refuses. */
store_opened store_open(const uint64_t *image, size_t words, uint16_t *scratch, size_t places, store_shared *shared);

/* Lists an image: opens it, and says for each of the file's 256 blocks which block of the image holds it, 0 for none and where it is
   refused.
   Lent: the image, a scratch as for opening, and 256 rows. Refusals: 1 to 9. */
store_opened store_list(const uint64_t *image, size_t words, uint16_t *scratch, size_t places, uint16_t *rows);

/* Point `number` joins. The shared record reports the first log block for it.
   Lent: the image, the shared record, and memory for the point's record, which is made. Do not lend the record of a point that is
   joined: it is overwritten.
   Refusals: 10, 12, 13, 18; then *point is all zeros. */
uint32_t store_join(const uint64_t *image, size_t words, store_shared *shared, uint32_t number, store_point *point);

/* Begins a write of `size` bytes, 1 to 1,024, from byte `offset` of the file on. Nothing of it shows before a step answers
   STORE_COMMITTED. The point reads up to the log's end, and the shared record reports its last block for it.
   Lent: the image, both records, and the bytes, which are copied into the record.
   Refusals: 10, 11, 14, 15, 16, 17, 18, 19. */
uint32_t store_begin(const uint64_t *image, size_t words, store_shared *shared, store_point *point, size_t offset,
                     const uint8_t *bytes, size_t size);

/* Begins a read of `size` bytes, 1 to 1,024, from byte `offset` of the file on, in steps: the other points need not wait for it. It may
   pass the file's end, and takes no block. (store_read reads at once.) The point reads up to the log's end, and the shared record
   reports its last block for it.
   Lent: the image and both records.
   Refusals: 10, 11, 14, 15, 16, 17, 18. */
uint32_t store_begin_read(const uint64_t *image, size_t words, store_shared *shared, store_point *point, size_t offset, size_t size);

/* A step of the point's write or read; other points may take steps between.
   A write: at most one word of the image is stored. Step on until STORE_COMMITTED or STORE_REFUSED; a point that steps alone is done
   after at most 388 steps.
   A read: nothing is stored. Step on until STORE_BYTES or STORE_REFUSED; a point that steps alone is done after at most 260 steps. Each
   step copies a word, and the last one looks at what was committed meanwhile: if it covers a block of the range, or lengthens the file
   where the range ended past its end, the step answers STORE_MOVED and the read begins again; else STORE_BYTES, and the bytes are the
   file's as of that step, 0 past its end.
   The shared record reports where the point stands after STORE_MOVED, where a read is done, and where a zeroed block is linked to the
   chain, which is one longer then.
   Lent: the image, both records, and `bytes`, room for 1,024 bytes. With STORE_BYTES the read's come to its front; no other step touches
   it, nor what lies behind them, so one room serves all points.
   Refusals, as value of STORE_REFUSED: 10, 11, 14, 15, 18, after which the write or the read is still under way; 20, 21, which end the
   write. */
store_answer store_step(uint64_t *image, size_t words, store_shared *shared, store_point *point, uint8_t *bytes);

/* The call behind store_serve, in libc_serve.a: it takes the shared record as its numbers, 35 from `blocks` on, and its map. */
uint32_t store_serve_parts(uint64_t *image, size_t words, uint32_t *numbers, uint64_t *taken, store_head *heads, size_t head_count,
                           uint16_t (*tables)[256], size_t table_count, uint8_t (*texts)[1024], size_t text_count,
                           store_served *answers, size_t answer_count, const store_write *writes, size_t write_count,
                           const uint8_t *bytes, size_t size);

/* Serves a list of 1 to 32 points with one write each, the n points at places 0 to n - 1 of the arrays: begins all writes in list order,
   then gives each unfinished one a step a round, in list order, until all are done: after at most 129 * (n - 1) + 260 rounds. It leaves
   what these calls of store_begin and store_step leave, one after the other; a point refused at its beginning or at a step gets no
   further step, and the others go on. Each answer is its point's last. A point with a write or a read under way is refused by 15 and
   keeps it.
   Lent: the image; the shared record; the points' records in three arrays, `heads`, `tables` and `texts` (store_put and store_get move
   a whole record into and out of a place); room for the answers; the writes; and in `bytes` what they write, one after the other in
   list order without gaps: `size` is the sum of all writes[i].size, those that are refused by 16 included.
   Refusals of the call, before all else, nothing begun and nothing changed: 26, where the five counts are not all the same, or
   not 1 to 32, or the sizes of the writes together are not `size`; 27, where two heads have the same `number`. Refusals of a point, in its answer: those
   of store_begin and of store_step. 18 at a step leaves the write under way, which the head's phase shows.
   Words are stored in the order of the steps, with nothing between them: where each must be written back before the next (a cached image),
   use store_begin and store_step. */
static inline uint32_t store_serve(uint64_t *image, size_t words, store_shared *shared, store_head *heads, size_t head_count,
                                   uint16_t (*tables)[256], size_t table_count, uint8_t (*texts)[1024], size_t text_count,
                                   store_served *answers, size_t answer_count, const store_write *writes, size_t write_count,
                                   const uint8_t *bytes, size_t size)
{
    return store_serve_parts(image, words, (uint32_t *)shared, shared->taken, heads, head_count, tables, table_count, texts, text_count,
                             answers, answer_count, writes, write_count, bytes, size);
}

/* Puts a point's record into place i of the three arrays, as after joining; and gets it from there, for a call that takes a whole record.
   Of the two copies only the one that a call has changed last is the point's record. */
static inline void store_put(store_head *heads, uint16_t (*tables)[256], uint8_t (*texts)[1024], size_t i, const store_point *point)
{
    heads[i] = point->head;
    for (size_t v = 0; v < STORE_VIRTUAL_BLOCKS; v++)
        tables[i][v] = point->table[v];
    for (size_t b = 0; b < STORE_TEXT_MOST; b++)
        texts[i][b] = point->text[b];
}

static inline void store_get(const store_head *heads, uint16_t (*tables)[256], uint8_t (*texts)[1024], size_t i, store_point *point)
{
    point->head = heads[i];
    for (size_t v = 0; v < STORE_VIRTUAL_BLOCKS; v++)
        point->table[v] = tables[i][v];
    for (size_t b = 0; b < STORE_TEXT_MOST; b++)
        point->text[b] = texts[i][b];
}

/* The point leaves; a write or a read that was under way is given up, and a write's blocks become free. The shared record reports 0
   for it.
   Lent: the image, the shared record, and the point's record, which is of no use afterwards. Refusals: 10, 11, 14. */
uint32_t store_leave(const uint64_t *image, size_t words, store_shared *shared, const store_point *point);

/* Reads the file from byte `offset` on into the buffer: as many bytes as fit and as the file has from there on; none at or past its
   end. All that is committed is seen, by whichever point; the records stay as they are.
   Lent: the image, both records, and the buffer. Answers the count of bytes.
   Refusals: 10, 11, 14, 18; then the count is 0 and the buffer untouched. */
store_count store_read(const uint64_t *image, size_t words, const store_shared *shared, const store_point *point, size_t offset,
                       uint8_t *buffer, size_t room);

/* Says which block of the image holds block `block` of the file, 0 to 255.
   Lent: the image and both records. Answers its number. Refusals: 10, 11, 14, 17, 18, 22; then the number is 0. */
store_count store_locate(const uint64_t *image, size_t words, const store_shared *shared, const store_point *point, size_t block);

/* The 64 words of block `block` of the file where they lie in the image, or a null pointer exactly where locating is refused. They
   stay the file's until a write over that block is committed. */
static inline const uint64_t *store_view(const uint64_t *image, size_t words, const store_shared *shared, const store_point *point,
                                         size_t block)
{
    store_count found = store_locate(image, words, shared, point, block);
    return found.refused ? (const uint64_t *)0 : image + (size_t)STORE_BLOCK_WORDS * found.count;
}

/* How many log blocks a point stands behind the last one of the chain, 0 for a point that is not joined: what it has not read of the log
   lies in its reported block and in so many after it. Whatever the numbers are, only words of the image are read, at most 64. */
static inline uint32_t store_behind(const uint64_t *image, size_t words, const store_shared *shared, uint32_t number)
{
    uint32_t behind = 0;
    uint64_t block = number < STORE_POINTS && ((shared->joined >> number) & 1) ? shared->reports[number] : 0;
    while (block != 0 && block < shared->blocks && STORE_BLOCK_WORDS * block < words && behind < shared->chain &&
           behind < STORE_CHAIN_MOST) {
        block = image[STORE_BLOCK_WORDS * block];
        behind += block != 0;
    }
    return behind;
}

#ifdef __cplusplus
}
#endif

#endif
