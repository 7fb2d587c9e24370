/* Honest runs: points that hand in each record as the last call left it. */
#include <inttypes.h>
#include <stdio.h>

#include "runs.h"

/* What a session is like: how many points, how many writes in all, how far they reach into the file, how long they are at most. */
struct session {
    size_t count, writes;
    size_t reach, longest;
};

static int is_idle(const store_point *point)
{
    return point->head.phase == STORE_IDLE;
}

static int all_idle(size_t count)
{
    for (size_t p = 0; p < count; p++)
        if (!is_idle(&points[p]))
            return 0;
    return 1;
}

/* Loss of power: whatever was under way is gone. */
static void reopen(size_t count)
{
    list(STORE_SCRATCH);
    start(count, (uint32_t)below(STORE_POINTS - POINTS));
}

/* Now and then something else than a write. */
static void other_call(const struct session *session, size_t p)
{
    uint32_t number = points[p].head.number;
    switch (below(40)) {
    case 0:
        reopen(session->count);
        break;
    case 1:
        leave(&points[p]);
        join(number, &points[p]);
        break;
    case 2:
    case 3:
        read_file(&points[p], below(session->reach), below(ROOM));
        break;
    case 4:
        look(&points[p], below(session->reach / BLOCK_BYTES + 2));
        break;
    default:
        break;
    }
}

/* Points take turns as the generator says: an idle one begins a write or a read, another makes some steps. */
static void work(const struct session *session)
{
    size_t writes = session->writes;
    while (writes > 0 || !all_idle(session->count)) {
        size_t p = below(session->count);
        if (!is_idle(&points[p])) {
            steps(&points[p], 1 + below(60));
        } else if (writes > 0 && below(3)) {
            writes--;
            begin(&points[p], below(session->reach), 1 + below(session->longest));
        } else if (writes > 0) {
            begin_read(&points[p], below(session->reach), 1 + below(session->longest));
        }
        other_call(session, p);
    }
}

/* Two points write into one block and find the log full: both take a block for it, and the second finds that the first has linked its own. */
static void race_for_link(size_t shift)
{
    lend_chain(16, shift, 1, 62);
    start(2, 7);
    begin(&points[0], 100, 50);
    begin(&points[1], 300, 50);
    for (size_t i = 0; i < 130; i++)
        for (size_t p = 0; p < 2; p++)
            step(&points[p]);
    steps(&points[0], 388);
    steps(&points[1], 388);
}

/* A point reads in steps; when it has copied all, another has committed into the range, then past it. */
static void read_between(void)
{
    lend_chain(12, 2, 1, 4);
    start(2, 9);
    begin_read(&points[0], 20, 300);
    steps(&points[0], 38);
    begin(&points[1], 100, 30);
    steps(&points[1], 388);
    step(&points[0]);
    begin(&points[1], 5000, 30);
    steps(&points[1], 388);
    steps(&points[0], 260);
}

/* 64 log blocks have room for one entry more. */
static void last_entry(void)
{
    lend_chain(STORE_BLOCKS_MOST, 1, 64, 61);
    start(1, 31);
    begin(&points[0], 511, 2);
    steps(&points[0], 388);
    begin(&points[0], 0, 512);
    steps(&points[0], 388);
}

/* Two points hold the last free blocks: a third can't begin, and the log can't get another block. */
static void no_free_block(void)
{
    lend_chain(8, 3, 1, 62);
    start(3, 0);
    begin(&points[0], 1, 1024);
    begin(&points[1], 0, 8);
    begin(&points[2], 0, 8);
    steps(&points[1], 388);
}

void run_honest(void)
{
    static const struct session few = {2, 5, 700, 300}, some = {4, 10, 2000, 1024}, many = {4, 8, 131072 - 1024, 1024}, near = {3, 8, 900, 200};
    lend_empty(8, 0);
    start(few.count, 0);
    work(&few);
    lend_empty(40, 1);
    start(some.count, 28);
    work(&some);
    lend_empty(STORE_BLOCKS_MOST, 2);
    start(many.count, 3);
    work(&many);
    lend_chain(24, 3, 2, 58);
    start(near.count, 11);
    work(&near);
    race_for_link(1);
    read_between();
    last_entry();
    no_free_block();
}

/* Finishes a write, but moves it on to its last two words where it begins to fill or refill: that keeps the trace short. */
static void hurry(store_point *point)
{
    for (store_answer answer = {STORE_MOVED, 0, 0}; answer.kind != STORE_COMMITTED && answer.kind != STORE_REFUSED; answer = step(point))
        if (answer.kind == STORE_MOVED)
            point->head.position = 62;
}

/* Two writes that meet in a block, a read in steps, a full log block, and each other call. */
void run_short(void)
{
    lend_empty(8, 0);
    start(2, 3);
    begin(&points[0], 0, 500);
    begin(&points[1], 500, 8);
    hurry(&points[0]);
    hurry(&points[1]);
    step(&points[0]);
    begin_read(&points[0], 490, 30);
    steps(&points[0], 260);
    read_file(&points[0], 0, 100);
    look(&points[0], 0);
    look(&points[0], 9);
    list(STORE_SCRATCH);
    leave(&points[0]);
    leave(&points[0]);
    uint64_t first = digest();
    serve_short();
    lend_chain(8, 0, 1, 62);
    start(1, 0);
    begin(&points[0], 9, 30);
    hurry(&points[0]);
    printf("memory %" PRIx64 " %" PRIx64 "\n", first, digest());
}
