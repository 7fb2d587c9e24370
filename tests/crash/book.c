/* The recovery rule of document 01, for readings that are laid in whole, in the order of their acknowledgements. */
#include <string.h>

#include "crash.h"

void book_empty(struct book *book)
{
    memset(book, 0, sizeof *book);
}

static struct entry entry_of(const struct reading *reading, uint32_t point)
{
    uint32_t end = reading->offset + reading->size, v = reading->offset / BLOCK, last = (end - 1) / BLOCK;
    return (struct entry){.v = v, .n = last - v + 1, .u = end - BLOCK * last, .point = point};
}

struct entry book_next(const struct book *book, const struct session *session, uint32_t point)
{
    struct reading reading;
    reading_of(session, point, book->next[point], &reading);
    return entry_of(&reading, point);
}

void book_lay_in(struct book *book, const struct session *session, uint32_t point)
{
    struct reading reading;
    reading_of(session, point, book->next[point]++, &reading);
    book->entries[book->count++] = entry_of(&reading, point);
    if (book->length < reading.offset + reading.size)
        book->length = reading.offset + reading.size;
    memcpy(book->bytes + reading.offset, reading.text, reading.size);
}
