/* The writer: a controller's main loop as in examples/parlour.c, which is killed somewhere. */
#include <string.h>
#include <unistd.h>

#include "crash.h"

static const struct session *session;
static uint64_t *image;
static size_t words;
static struct records *records;
static int out;
static int early;
static uint32_t numbers[STORE_POINTS]; /* of each point's reading that is written, or the next */
static int said[STORE_POINTS];         /* it is acknowledged already; only where it is done too early */
static int scarce;                     /* so few blocks are free that no write begins while another is under way */
static uint64_t dice;
static uint8_t bytes[STORE_TEXT_MOST]; /* for reads in steps, of which there are none */

static void say(uint32_t kind, uint32_t point, uint32_t value, const char *call)
{
    struct message message = {.kind = kind, .point = point, .value = value};
    strncpy(message.call, call, sizeof message.call - 1);
    if (write(out, &message, sizeof message) != (ssize_t)sizeof message)
        _exit(1);
    if (kind != ACKNOWLEDGED)
        _exit(0);
}

static int another_writes(uint32_t p)
{
    for (uint32_t q = 0; q < session->points; q++)
        if (q != p && records->points[q].head.phase != STORE_IDLE)
            return 1;
    return 0;
}

/* For want of blocks writes go one at a time until one commits, so each time at least one does; refused with no other under way, the file is full. */
static void refused(uint32_t p, uint32_t why, const char *call)
{
    int no_block = why == STORE_NO_RUN || why == STORE_NO_LOG_BLOCK;
    if (no_block || why == STORE_LOG_FULL)
        records->refused[why - STORE_NO_RUN]++;
    if (no_block && another_writes(p))
        scarce = 1;
    else
        say(no_block || why == STORE_LOG_FULL ? FULL : STRANGE, p, why, call);
}

static void begin(uint32_t p)
{
    struct reading reading;
    reading_of(session, p, numbers[p], &reading);
    records->calling = 1;
    uint32_t why = store_begin(image, words, &records->shared, &records->points[p], reading.offset, reading.text, reading.size);
    records->calling = 0;
    if (why != STORE_DONE)
        refused(p, why, "begin");
}

/* Whether the point's next step is sure to commit: no word of the run is left, and the word at its log place is empty. */
static int will_commit(const store_head *head)
{
    uint32_t blocks = (head->offset % BLOCK + head->size + BLOCK - 1) / BLOCK;
    return head->phase == STORE_FILLING && head->position == STORE_BLOCK_WORDS * blocks && head->slot < STORE_BLOCK_WORDS &&
           image[STORE_BLOCK_WORDS * head->block + head->slot] == 0;
}

static void acknowledge(uint32_t p)
{
    if (!said[p])
        say(ACKNOWLEDGED, p, numbers[p], "step");
    said[p] = 1;
}

static void step(uint32_t p)
{
    if (early && will_commit(&records->points[p].head))
        acknowledge(p);
    records->calling = 1;
    store_answer answer = store_step(image, words, &records->shared, &records->points[p], bytes);
    records->calling = 0;
    if (answer.kind == STORE_COMMITTED) {
        acknowledge(p);
        said[p] = 0;
        numbers[p]++;
        scarce = 0;
    } else if (answer.kind == STORE_MOVED)
        records->moved++;
    else if (answer.kind == STORE_REFUSED)
        refused(p, answer.value, "step");
    else if (answer.kind != STORE_STORED && answer.kind != STORE_EXTENDING)
        say(STRANGE, p, answer.kind, "answer");
}

static void turn(void)
{
    for (uint32_t p = 0; p < session->points; p++) {
        const store_head *head = &records->points[p].head;
        if (head->phase == STORE_IDLE && !(scarce && another_writes(p)))
            begin(p);
        for (uint32_t k = 1 + below(&dice, session->burst); k > 0 && head->phase != STORE_IDLE; k--)
            step(p);
    }
}

/* Opens the image, as it is; all points join. */
static void start(void)
{
    static uint16_t scratch[STORE_SCRATCH];
    records->calling = 1;
    store_opened opened = store_open(image, words, scratch, STORE_SCRATCH, &records->shared);
    if (opened.refused != STORE_DONE)
        say(STRANGE, 0, opened.refused, "open");
    for (uint32_t p = 0; p < session->points; p++) {
        uint32_t why = store_join(image, words, &records->shared, p, &records->points[p]);
        if (why != STORE_DONE)
            say(STRANGE, p, why, "join");
    }
    records->calling = 0;
    records->began = now();
}

_Noreturn void write_on(const struct session *the_session, const uint32_t next[STORE_POINTS], uint64_t *the_image, struct records *the_records, int pipe,
                        int too_early)
{
    session = the_session;
    image = the_image;
    words = (size_t)STORE_BLOCK_WORDS * session->blocks;
    records = the_records;
    out = pipe;
    early = too_early;
    memcpy(numbers, next, sizeof numbers);
    dice = session->seed;
    start();
    for (;;)
        turn();
}
