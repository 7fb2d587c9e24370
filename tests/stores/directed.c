/* Directed runs: each refusal that the header lists, brought about on purpose. */
#include "runs.h"

static void open_and_list(size_t places)
{
    open_image(places);
    list(places);
}

/* Opens and lists a chain of so many full log blocks with one word altered. */
static void open_altered(size_t chained, size_t word, uint64_t value)
{
    lend_chain(12, chained % SHIFTS, chained, 62);
    image[word] = value;
    open_and_list(STORE_SCRATCH);
}

/* 1 to 9. */
static void openings(void)
{
    static const size_t lengths[] = {0, 1, 192, 255, 257, 65537, 65600};
    lend_empty(8, 2);
    for (size_t i = 0; i < sizeof lengths / sizeof *lengths; i++) {
        words = lengths[i];
        open_and_list(STORE_SCRATCH);
        lay_out();
    }
    words = 8 * STORE_BLOCK_WORDS;
    open_and_list(STORE_SCRATCH - 1);
    open_altered(1, 0, 1);
    open_altered(1, 63, 1);
    open_altered(1, 1, 0);
    open_altered(2, 64, 12);
    open_altered(1, 64, 1);
    open_altered(2, 4 * 64 + 1, 1);
    open_altered(1, 64 + 5, 0);
    open_altered(1, 64 + 5, entry(0, 2, 1, 513));
    open_altered(1, 64 + 63, entry(5, 2, 1, 1));
    open_altered(2, 4 * 64 + 63, entry(1, 4, 1, 512));
    open_altered(1, 64 + 63, entry(2, 5, 1, 9));
}

/* A fresh image of 8 blocks, with two points; the second has a write under way. */
static void two_points(void)
{
    lend_chain(8, 1, 1, 2);
    start(2, 4);
    begin(&points[1], 20, 20);
}

/* Each call that is lent a point's record, and a step after it. */
static void all_calls(store_point *point)
{
    begin(point, 40, 10);
    begin_read(point, 40, 10);
    step(point);
    read_file(point, 0, 64);
    look(point, 1);
    leave(point);
}

/* 10 to 14, for a point that is idle and for one that is not. */
static void unfit_records(size_t p)
{
    two_points();
    shared.blocks++;
    all_calls(&points[p]);
    join(9, &points[2]);
    shared.blocks--;
    points[p].head.slot = 65;
    all_calls(&points[p]);
    points[p].head.slot = 2;
    points[p].head.phase += 7;
    all_calls(&points[p]);
    points[p].head.phase -= 7;
    points[p].head.retries = 65536;
    all_calls(&points[p]);
    points[p].head.retries = 0;
    join(32, &points[2]);
    join(points[p].head.number, &points[2]);
    all_calls(&points[p]);
    all_calls(&points[p]);
}

/* 15 to 17, 19 and 22. */
static void unfit_arguments(void)
{
    two_points();
    step(&points[0]);
    begin(&points[1], 0, 1);
    begin_read(&points[1], 0, 1);
    begin_read(&points[0], 0, 0);
    begin_read(&points[0], 0, 1025);
    begin_read(&points[0], 131071, 2);
    begin_read(&points[0], 1, SIZE_MAX);
    begin(&points[0], 0, 0);
    begin(&points[0], 0, 1025);
    begin(&points[0], 131071, 2);
    begin(&points[0], SIZE_MAX, 1);
    look(&points[0], 256);
    look(&points[0], SIZE_MAX);
    look(&points[0], 2);
    shared.taken[0] = UINT64_MAX;
    begin(&points[0], 0, 1);
}

/* 18: the log is damaged while in use. The write under way is filled before, and the read is copied. */
static void broken_log(void)
{
    two_points();
    join(6, &points[2]);
    begin_read(&points[2], 0, 8);
    step(&points[2]);
    steps(&points[1], 64);
    image[64 + 4] = UINT64_MAX;
    step(&points[1]);
    step(&points[2]);
    begin(&points[0], 0, 1);
    begin_read(&points[0], 0, 1);
    read_file(&points[0], 0, 64);
    look(&points[0], 0);
    image[1] = 8;
    join(20, &points[3]);
}

void run_directed(void)
{
    openings();
    unfit_records(0);
    unfit_records(1);
    unfit_arguments();
    broken_log();
}
