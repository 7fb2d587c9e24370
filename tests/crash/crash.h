/* A crash that nobody staged: what the writer, the watcher and the checks have in common. README.md says how they go together. */
#ifndef CRASH_H
#define CRASH_H

#include <sys/types.h>

#include "store.h"

enum {
    BLOCK = 512,                   /* bytes of a block */
    SLOTS = 62,                    /* entries of a log block */
    CHAIN_MOST = 64,               /* log blocks */
    LOG_MOST = CHAIN_MOST * SLOTS  /* entries of a log */
};

/* ---- Tools (tools.c). */

/* A random number, and one below a bound; both move the dice on. */
uint64_t draw(uint64_t *dice);
uint32_t below(uint64_t *dice, uint32_t bound);

/* Nanoseconds of a clock. */
uint64_t now(void);

/* Ends the program where the system does not do what it is asked for. */
void must(int holds, const char *what);

/* ---- Readings (reading.c). */

/* What a writer is told. */
struct session {
    uint64_t seed;    /* of its readings. Each writer has its own, so what an interrupted one left in free blocks is never what belongs there */
    uint32_t blocks;  /* of the image */
    uint32_t points;  /* that write, from 0 on */
    uint32_t span;    /* blocks of the file that readings go to, at least 2 */
    uint32_t burst;   /* steps of a point in a turn, at most */
};

struct reading {
    uint32_t offset, size;
    uint8_t text[STORE_TEXT_MOST];
};

/* Reading `number` of a point: the same for the same session, point and number. */
void reading_of(const struct session *session, uint32_t point, uint32_t number, struct reading *reading);

/* ---- The book (book.c). */

/* An entry of a log, docs/FORMAT.md. */
struct entry {
    uint32_t v, b, n, u, point;
};

/* The recovery rule: the file that the acknowledged readings give, the entries that they have in the log, and each point's next number. */
struct book {
    uint8_t bytes[STORE_FILE_MOST];  /* 0 from `length` on */
    uint32_t length;
    struct entry entries[LOG_MOST];  /* b is not the book's to know, and 0 */
    uint32_t count;
    uint32_t next[STORE_POINTS];
};

/* The book of an empty file. */
void book_empty(struct book *book);

/* The entry of the point's next reading. */
struct entry book_next(const struct book *book, const struct session *session, uint32_t point);

/* Lays the point's next reading in. */
void book_lay_in(struct book *book, const struct session *session, uint32_t point);

/* ---- The image (image.c). */

/* Makes the file of shared memory that holds it. It has no name, so nothing of it is left when the processes end. */
void image_make(void);

/* Lays out an empty file, over whatever was there or over random words. Laying out is not guarded, so nobody is killed meanwhile. */
void image_lay_out(uint32_t blocks, uint64_t *dice);

/* The image in the process's memory, to read or also to write, and no longer. */
uint64_t *image_map(uint32_t blocks, int writable);
void image_unmap(uint64_t *image, uint32_t blocks);

/* Copies it into a file. */
void image_save(const uint64_t *image, uint32_t blocks, const char *path);

/* ---- The check (check.c). */

/* Opens the image and compares it with the book; an entry that is ahead of its acknowledgement is laid in, and counted in `ahead`.
   Answers 0 where all agrees; otherwise what does not, in words that stand until the next check. */
const char *check(const uint64_t *image, const struct session *session, struct book *book, uint32_t *ahead);

/* ---- The writer (writer.c). */

/* Its ordinary memory. It lies where the watcher sees it after the kill, for the figures only; then the watcher spoils it, as loss of power does. */
struct records {
    store_shared shared;
    store_point points[STORE_POINTS];
    volatile uint32_t calling;     /* a call of the library is under way */
    volatile uint32_t moved;       /* steps that answered Moved */
    volatile uint32_t refused[3];  /* writes refused by 19, 20, 21 */
    volatile uint64_t began;       /* when all points had joined, 0 before */
};

/* What it says through the pipe, each with one write of one message. */
enum { ACKNOWLEDGED, FULL, STRANGE };

struct message {
    uint32_t kind;
    uint32_t point;
    uint32_t value;  /* ACKNOWLEDGED: the reading's number; FULL: the refusal, 19 to 21; STRANGE: the answer */
    char call[8];    /* which call answered so */
};

/* Opens the image and lets all points write on from their next numbers until the image or its log is full; it does not return.
   With `early` it acknowledges one step too early, where it can tell that the step will commit. */
_Noreturn void write_on(const struct session *session, const uint32_t next[STORE_POINTS], uint64_t *image, struct records *records, int pipe,
                        int early);

/* ---- A writer's life, as the watcher sees it (life.c). */

struct life {
    pid_t process;
    int pipe;
    uint64_t start, end;
    uint32_t acknowledged;  /* readings */
    int ended;              /* nothing more comes through the pipe */
    int full;               /* it has said that the file is full */
    int killed;             /* and did not end by itself */
    char complaint[120];    /* what it did that it must not do; empty if nothing */
};

/* Starts a writer on the image, with records that are spoiled. */
void life_start(struct life *life, const struct session *session, const struct book *book, struct records *records, int early);

/* Lays all that is acknowledged into the book, until so many nanoseconds after the start, or until the writer has ended by itself. */
void life_watch(struct life *life, const struct session *session, struct book *book, uint64_t time);

/* Kills the writer, and lays in what was still in the pipe. */
void life_end(struct life *life, const struct session *session, struct book *book);

/* ---- Figures (figures.c). */

/* About so many readings go into a file: what the log holds, or the blocks that the file and one write leave it. */
uint32_t room_of(const struct session *session);

/* Counts a life that has ended; the book is as it was left, before a reading that is ahead is laid in. */
void count_life(const struct life *life, const struct session *session, const struct book *book, const struct records *records);

/* How many kills there were, and what it took up to now to start a writer, and to write a reading with so many points. */
uint32_t kills(void);
uint64_t starting_time(void);
uint64_t reading_time(uint32_t points);

void print_figures(void);

#endif
