/* How many writes a session makes before one finds no run of free blocks (19), by two searches: next fit, which the library had in its base, and best fit.

   The sessions are drawn from seeds. At each turn one of 8 points is drawn: an idle one begins a write, another finishes the one that it has under way. Each
   write spans 1 to 3 blocks. At first the file grows, each write beginning in the block after the one before; when it has its blocks, writes go over them at
   drawn places. A session ends at its first refusal: 19, 20 when its log is full, or 21.

   Both searches get the same writes, on a model of the map. The library is taken through the sessions of its own search, and must take the same blocks and
   refuse the same write. */
#include <stdio.h>
#include <stdlib.h>
#include <string.h>

#include "store.h"

enum { POINTS = 8, SESSIONS = 200, ENTRIES = STORE_BLOCK_WORDS - 2, LOG_BLOCKS = 64, BLOCK = 8 * STORE_BLOCK_WORDS };

/* A row: the blocks of the image and of the file; how many of 100 writes span one block and two, the others three. */
typedef struct row {
    uint32_t blocks, file, ones, twos;
} row;

static const row rows[] = {
    {64, 16, 70, 20},   {64, 32, 70, 20},   {64, 48, 70, 20},   {64, 32, 34, 33},  {256, 128, 70, 20}, {256, 192, 70, 20},
    {256, 224, 70, 20}, {256, 128, 34, 33}, {256, 192, 98, 0},  {256, 192, 0, 0},  {1024, 256, 70, 20},
};
enum { ROWS = sizeof rows / sizeof rows[0] };

/* A write: the blocks of the file that it spans, from the first on; its run; its bytes. One that spans none is none. */
typedef struct write {
    uint32_t first, span, run;
    size_t offset, size;
} write;

/* A session as the model has it. */
static struct {
    const row *row;
    uint8_t taken[STORE_BLOCKS_MOST];
    uint32_t next; /* the next place, of next fit */
    uint32_t table[STORE_VIRTUAL_BLOCKS];
    uint32_t grown, committed; /* blocks that the file has been given; writes */
    write writes[POINTS];
    uint32_t fills[STORE_BLOCKS_MOST]; /* how often each block was taken for a write */
} model;

/* ---- The two searches. Each answers the first block of a run of n free blocks, 0 for none. */

typedef uint32_t search(uint32_t n);

/* How many blocks from s on are free, as far as `most`. */
static uint32_t stretch(uint32_t s, uint32_t most)
{
    uint32_t length = 0;
    while (length < most && s + length < model.row->blocks && !model.taken[s + length])
        length++;
    return length;
}

/* The first fitting start from `from` to below `end`. */
static uint32_t first_fit(uint32_t n, uint32_t from, uint32_t end)
{
    for (uint32_t s = from; s < end; s++)
        if (stretch(s, n) == n)
            return s;
    return 0;
}

/* The search of the base, as document 01 has it: from the next place on, then from 1 on. Document 02, K2 took the next place away. */
static uint32_t next_fit(uint32_t n)
{
    uint32_t s = first_fit(n, model.next, model.row->blocks);
    if (s == 0)
        s = first_fit(n, 1, model.next);
    if (s != 0)
        model.next = s + n < model.row->blocks ? s + n : 1;
    return s;
}

/* The search of document 02, K2: the shortest stretch that is long enough, the lowest of equals, its first blocks. None is shorter than one of just n. */
static uint32_t best_fit(uint32_t n)
{
    uint32_t best = 0, least = STORE_BLOCKS_MOST, length;
    for (uint32_t s = 1; s < model.row->blocks && n < least; s += length + 1) {
        length = stretch(s, STORE_BLOCKS_MOST);
        if (n <= length && length < least) {
            best = s;
            least = length;
        }
    }
    return best;
}

/* ---- The library beside the model: the same calls, and the same blocks taken. */

static uint64_t image[STORE_BLOCKS_MOST * STORE_BLOCK_WORDS];
static size_t words;
static store_shared shared;
static store_point points[POINTS];
static uint8_t bytes[STORE_TEXT_MOST]; /* room for the bytes of a read in steps, which no write uses */
static int beside;     /* whether it goes along */
static int every_step; /* whether its points take the steps that fill, which take no block; else these are passed over */
static unsigned long searches;

static void agree(const char *what, uint32_t library, uint32_t expected)
{
    if (library != expected) {
        fprintf(stderr, "%s: %u by the library, %u by the model, after %u writes\n", what, (unsigned)library, (unsigned)expected,
                (unsigned)model.committed);
        exit(1);
    }
}

static void start_beside(void)
{
    static uint16_t scratch[STORE_SCRATCH];
    words = (size_t)model.row->blocks * STORE_BLOCK_WORDS;
    agree("laying out", store_lay_out(image, words), STORE_DONE);
    agree("opening", store_open(image, words, scratch, STORE_SCRATCH, &shared).refused, STORE_DONE);
    for (uint32_t p = 0; p < POINTS; p++)
        agree("joining", store_join(image, words, &shared, p, &points[p]), STORE_DONE);
}

static void begin_beside(uint32_t p, const write *w)
{
    static const uint8_t text[STORE_TEXT_MOST];
    searches++;
    agree("beginning", store_begin(image, words, &shared, &points[p], w->offset, text, w->size), w->run != 0 ? STORE_DONE : STORE_NO_RUN);
    agree("run", points[p].head.run, w->run);
}

/* Steps until the write ends, by that refusal or none; `log_block` is the block that the log takes for it, 0 for none. */
static void finish_beside(uint32_t p, const write *w, uint32_t log_block, uint32_t refused)
{
    uint32_t taken = 0;
    store_answer answer;
    do {
        if (!every_step && points[p].head.phase != STORE_ZEROING)
            points[p].head.position = w->span * STORE_BLOCK_WORDS;
        answer = store_step(image, words, &shared, &points[p], bytes);
        if (answer.kind == STORE_EXTENDING)
            taken = points[p].head.zeroing;
    } while (answer.kind != STORE_COMMITTED && answer.kind != STORE_REFUSED);
    searches += taken != 0;
    agree("log block", taken, log_block);
    agree("commit", answer.kind == STORE_REFUSED ? answer.value : STORE_DONE, refused);
}

/* After a beginning was refused the library's map is the model's. */
static void compare_maps(void)
{
    for (uint32_t b = 0; b < model.row->blocks; b++)
        agree("map", shared.taken[b / 64] >> (b % 64) & 1, model.taken[b]);
}

/* ---- Drawn writes. */

static uint64_t seed;

static uint32_t below(size_t limit)
{
    uint64_t z = seed += UINT64_C(0x9E3779B97F4A7C15);
    z = (z ^ (z >> 30)) * UINT64_C(0xBF58476D1CE4E5B9);
    z = (z ^ (z >> 27)) * UINT64_C(0x94D049BB133111EB);
    return (uint32_t)((z ^ (z >> 31)) % limit);
}

static size_t between(size_t least, size_t most)
{
    return least + below(most - least + 1);
}

/* The blocks of the file that the next write spans: those after its last one while it grows, then any. */
static void draw_blocks(write *w)
{
    uint32_t percent = below(100), file = model.row->file;
    w->span = percent < model.row->ones ? 1 : percent < model.row->ones + model.row->twos ? 2 : 3;
    uint32_t last = file - w->span, any = below(last + 1);
    if (model.grown == file) {
        w->first = any;
        return;
    }
    w->first = model.grown < last ? model.grown : last;
    model.grown = w->first + w->span;
}

/* Bytes from the first of these blocks to the last. */
static void draw_bytes(write *w)
{
    size_t skipped = between(w->span == 3, BLOCK - 1), most = (size_t)w->span * BLOCK - skipped;
    size_t least = w->span == 1 ? 1 : most - BLOCK + 1;
    w->offset = (size_t)w->first * BLOCK + skipped;
    w->size = between(least, most < STORE_TEXT_MOST ? most : STORE_TEXT_MOST);
}

/* ---- A session. */

/* How it ended: by which refusal, after how many writes, with how many blocks free. */
typedef struct ending {
    uint32_t refused, writes, free;
} ending;

static uint32_t begin(uint32_t p, search *find)
{
    write *w = &model.writes[p];
    draw_blocks(w);
    draw_bytes(w);
    w->run = find(w->span);
    if (beside)
        begin_beside(p, w);
    if (w->run == 0)
        return STORE_NO_RUN;
    for (uint32_t b = w->run; b < w->run + w->span; b++) {
        model.taken[b] = 1;
        model.fills[b]++;
    }
    return STORE_DONE;
}

/* The log's next block, where the write needs one. */
static uint32_t extend(search *find, uint32_t *log_block)
{
    *log_block = 0;
    if (model.committed == 0 || model.committed % ENTRIES != 0)
        return STORE_DONE;
    if (model.committed == LOG_BLOCKS * ENTRIES)
        return STORE_LOG_FULL;
    *log_block = find(1);
    model.taken[*log_block] = 1;
    return *log_block != 0 ? STORE_DONE : STORE_NO_LOG_BLOCK;
}

static uint32_t finish(uint32_t p, search *find)
{
    write *w = &model.writes[p];
    uint32_t log_block, refused = extend(find, &log_block);
    if (beside)
        finish_beside(p, w, log_block, refused);
    if (refused != STORE_DONE)
        return refused;
    for (uint32_t i = 0; i < w->span; i++) {
        uint32_t *place = &model.table[w->first + i];
        if (*place != 0)
            model.taken[*place] = 0;
        *place = w->run + i;
    }
    w->span = 0;
    model.committed++;
    return STORE_DONE;
}

static ending play(const row *r, uint64_t number, search *find)
{
    memset(&model, 0, sizeof model);
    model.row = r;
    model.taken[0] = model.taken[1] = 1;
    model.next = 1;
    seed = number << 32;
    if (beside)
        start_beside();
    ending end = {STORE_DONE, 0, 0};
    while (end.refused == STORE_DONE) {
        uint32_t p = below(POINTS);
        end.refused = model.writes[p].span == 0 ? begin(p, find) : finish(p, find);
    }
    if (beside && end.refused == STORE_NO_RUN)
        compare_maps();
    end.writes = model.committed;
    for (uint32_t b = 0; b < r->blocks; b++)
        end.free += !model.taken[b];
    return end;
}

/* ---- The tables. */

/* What the sessions of a row give by one search. */
typedef struct figures {
    uint32_t writes[SESSIONS];
    uint32_t free[SESSIONS], met;              /* free blocks of the first `met` places, for the sessions that met 19 */
    uint32_t most[SESSIONS], unused[SESSIONS]; /* fills of the most filled block; blocks never filled */
    uint32_t lowest[SESSIONS];                 /* of 100 fills those in the lowest half of the blocks */
    double mean;                               /* fills of a block */
} figures;

static int rising(const void *a, const void *b)
{
    uint32_t x = *(const uint32_t *)a, y = *(const uint32_t *)b;
    return (x > y) - (x < y);
}

/* The value that so many quarters of the values lie below. */
static unsigned quartile(const uint32_t *values, uint32_t count, uint32_t quarters)
{
    uint32_t sorted[SESSIONS];
    memcpy(sorted, values, count * sizeof sorted[0]);
    qsort(sorted, count, sizeof sorted[0], rising);
    return sorted[count * quarters / 4];
}

static void note_wear(figures *f, int session)
{
    uint32_t all = 0, low = 0, blocks = model.row->blocks;
    for (uint32_t b = 1; b < blocks; b++) {
        uint32_t fills = model.fills[b];
        all += fills;
        low += b < blocks / 2 ? fills : 0;
        f->unused[session] += fills == 0;
        if (f->most[session] < fills)
            f->most[session] = fills;
    }
    f->lowest[session] = 100 * low / all;
    f->mean += (double)all / (blocks - 1) / SESSIONS;
}

/* The library goes along where the search is its own; in the first session with every step. */
static void play_all(const row *r, search *find, figures *f)
{
    memset(f, 0, sizeof *f);
    beside = find == best_fit;
    for (int i = 0; i < SESSIONS; i++) {
        every_step = i == 0;
        ending end = play(r, (uint64_t)i, find);
        f->writes[i] = end.writes;
        if (end.refused == STORE_NO_RUN)
            f->free[f->met++] = end.free;
        note_wear(f, i);
    }
}

static void print_writes(const figures *f)
{
    printf(" %u (%u to %u) |", quartile(f->writes, SESSIONS, 2), quartile(f->writes, SESSIONS, 1), quartile(f->writes, SESSIONS, 3));
    if (f->met > 0)
        printf(" %u |", quartile(f->free, f->met, 2));
    else
        printf(" – |");
    printf(" %u |", (unsigned)(SESSIONS - f->met));
}

static void print_row(const row *r, const figures *next, const figures *best)
{
    unsigned earlier = 0, later = 0;
    for (int i = 0; i < SESSIONS; i++) {
        earlier += best->writes[i] < next->writes[i];
        later += best->writes[i] > next->writes[i];
    }
    printf("| %u | %u | %u, %u, %u %% |", (unsigned)r->blocks, (unsigned)r->file, (unsigned)r->ones, (unsigned)r->twos,
           (unsigned)(100 - r->ones - r->twos));
    print_writes(next);
    print_writes(best);
    printf(" %u, %u |\n", earlier, later);
}

/* Of a row by both searches. */
static void print_wear(const row *r, const figures *next, const figures *best)
{
    printf("\n| %u blocks, a file of %u | next fit | best fit |\n|---|---:|---:|\n", (unsigned)r->blocks, (unsigned)r->file);
    printf("| writes of a session | %u | %u |\n", quartile(next->writes, SESSIONS, 2), quartile(best->writes, SESSIONS, 2));
    printf("| fills of a block, mean | %.1f | %.1f |\n", next->mean, best->mean);
    printf("| fills of the block that is filled most | %u | %u |\n", quartile(next->most, SESSIONS, 2), quartile(best->most, SESSIONS, 2));
    printf("| of 100 fills those in the lower half of the blocks | %u | %u |\n", quartile(next->lowest, SESSIONS, 2), quartile(best->lowest, SESSIONS, 2));
    printf("| blocks never filled | %u | %u |\n", quartile(next->unused, SESSIONS, 2), quartile(best->unused, SESSIONS, 2));
}

int main(void)
{
    static figures next, best;
    printf("| image | file | spans 1, 2, 3 | next fit: writes | free | no 19 | best fit: writes | free | no 19 | best fit earlier, later |\n"
           "|---:|---:|---:|---:|---:|---:|---:|---:|---:|---:|\n");
    for (size_t i = 0; i < ROWS; i++) {
        play_all(&rows[i], next_fit, &next);
        play_all(&rows[i], best_fit, &best);
        print_row(&rows[i], &next, &best);
    }
    print_wear(&rows[ROWS - 1], &next, &best);
    printf("\nSessions of a row: %d. Searches by best fit that the library has made too, with the same outcome: %lu.\n", (int)SESSIONS, searches);
    return 0;
}
