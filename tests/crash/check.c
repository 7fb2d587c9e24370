/* What is compared after a kill: the image as it opens through C, and its log word by word, with the book. */
#include <stdarg.h>
#include <stdio.h>
#include <string.h>

#include "crash.h"

/* What is in the image. */
static struct entry entries[LOG_MOST];
static uint32_t count; /* of the entries */
static uint32_t chain; /* log blocks */
static uint8_t bytes[STORE_FILE_MOST + 1];

static char words_of_fault[200];

__attribute__((format(printf, 1, 2))) static const char *fault(const char *format, ...)
{
    va_list numbers;
    va_start(numbers, format);
    vsnprintf(words_of_fault, sizeof words_of_fault, format, numbers);
    va_end(numbers);
    return words_of_fault;
}

static struct entry unpacked(uint64_t word)
{
    return (struct entry){.v = (uint32_t)(word & 0xFFFF), .b = (uint32_t)(word >> 16 & 0xFFFF), .n = (uint32_t)(word >> 32 & 0xFF),
                          .u = (uint32_t)(word >> 40 & 0x3FF), .point = (uint32_t)(word >> 50 & 0x1F)};
}

/* Whether two entries are those of the same reading, wherever its blocks lie. */
static int same_reading(struct entry a, struct entry b)
{
    return a.v == b.v && a.n == b.n && a.u == b.u && a.point == b.point;
}

/* Reads the chain from the superblock on, and the entries of its blocks up to the first empty one. */
static const char *read_log(const uint64_t *image, uint32_t blocks)
{
    count = chain = 0;
    for (uint64_t at = image[1]; at != 0; at = image[STORE_BLOCK_WORDS * at]) {
        if (at >= blocks || chain == CHAIN_MOST)
            return fault("the chain leads out of the image or does not end, and yet the image opens");
        chain++;
        const uint64_t *block = image + STORE_BLOCK_WORDS * at;
        for (uint32_t slot = 2; slot < STORE_BLOCK_WORDS && block[slot] != 0; slot++)
            entries[count++] = unpacked(block[slot]);
    }
    return 0;
}

/* The log begins with the entries of the book, in its order. */
static const char *log_has_book(const struct book *book)
{
    for (uint32_t i = 0; i < book->count && i < count; i++)
        if (!same_reading(entries[i], book->entries[i]))
            return fault("entry %u of the log is not that of the reading acknowledged there", i);
    if (count < book->count)
        return fault("%u readings are acknowledged, %u are in the log", book->count, count);
    return 0;
}

/* What follows there is at most one entry for each point, that of its next reading. More than one altogether there can't be: a single process
   takes all steps and acknowledges right after the step that commits, before it makes another call, so when it commits all earlier ones are
   acknowledged; and an acknowledgement is in the pipe whole or not at all. */
static const char *take_ahead(const struct session *session, struct book *book, uint32_t *ahead)
{
    uint32_t before = book->count;
    uint8_t seen[STORE_POINTS] = {0};
    for (uint32_t i = before; i < count; i++) {
        uint32_t point = entries[i].point;
        if (point >= session->points)
            return fault("entry %u is of point %u, which never joined", i, point);
        if (seen[point]++)
            return fault("two entries of point %u are ahead of its acknowledgements", point);
        if (!same_reading(entries[i], book_next(book, session, point)))
            return fault("entry %u is not that of the next reading of point %u", i, point);
        book_lay_in(book, session, point);
    }
    *ahead = book->count - before;
    return *ahead > 1 ? fault("%u entries are ahead of the acknowledgements", *ahead) : 0;
}

/* What opening answers follows from the log: entries, length, and the blocks that neither superblock nor log nor file has. */
static const char *counts_agree(const struct session *session, const struct book *book, store_opened opened)
{
    uint8_t mapped[STORE_VIRTUAL_BLOCKS] = {0};
    uint32_t live = 0;
    for (uint32_t i = 0; i < count; i++)
        for (uint32_t v = entries[i].v; v < entries[i].v + entries[i].n; v++)
            live += !mapped[v], mapped[v] = 1;
    if (opened.entries != count)
        return fault("opening counts %u entries, the log has %u", opened.entries, count);
    if (opened.length != book->length)
        return fault("the file's length is %u, not %u", opened.length, book->length);
    if (opened.free != session->blocks - 1 - chain - live)
        return fault("opening counts %u free blocks, not %u", opened.free, session->blocks - 1 - chain - live);
    return 0;
}

/* A point joins and reads the whole file: it is the book's. */
static const char *file_agrees(const uint64_t *image, size_t words, store_shared *shared, const struct book *book)
{
    static store_point point;
    uint32_t refused = store_join(image, words, shared, 0, &point);
    if (refused != STORE_DONE)
        return fault("joining is refused by %u", refused);
    store_count got = store_read(image, words, shared, &point, 0, bytes, sizeof bytes);
    if (got.refused != STORE_DONE)
        return fault("reading is refused by %u", got.refused);
    if (got.count != book->length)
        return fault("%u bytes are read, not %u", got.count, book->length);
    for (uint32_t i = 0; i < book->length; i++)
        if (bytes[i] != book->bytes[i])
            return fault("byte %u of the file is %u, not %u", i, bytes[i], book->bytes[i]);
    return 0;
}

const char *check(const uint64_t *image, const struct session *session, struct book *book, uint32_t *ahead)
{
    static uint16_t scratch[STORE_SCRATCH];
    static store_shared shared;
    size_t words = (size_t)STORE_BLOCK_WORDS * session->blocks;
    const char *found = 0;
    *ahead = 0;
    store_opened opened = store_open(image, words, scratch, STORE_SCRATCH, &shared);
    if (opened.refused != STORE_DONE)
        return fault("opening is refused by %u", opened.refused);
    if ((found = read_log(image, session->blocks)) != 0 || (found = log_has_book(book)) != 0)
        return found;
    if ((found = take_ahead(session, book, ahead)) != 0 || (found = counts_agree(session, book, opened)) != 0)
        return found;
    return file_agrees(image, words, &shared, book);
}
