/* Reads lackey's trace of the driver from standard input, keeps the marks and the stores into the image, and checks the rules.
   It prints a table of calls and stores and a line for each rule; its status is 1 if a rule is broken.
   watch [--part]: with --part not every answer has to come up. */
#define _GNU_SOURCE
#include <fcntl.h>
#include <inttypes.h>
#include <stdarg.h>
#include <stdio.h>
#include <stdlib.h>
#include <string.h>
#include <time.h>
#include <unistd.h>

#include "places.h"

enum { BLOCK_BYTES = 512, WIDEST = 64, PIECE = 1 << 20, FIRST = 120 };

/* Each call with its answers: all must come up, and no other may. */
static const struct {
    const char *name;
    unsigned char answers[24]; /* how many, then which */
} calls[CALLS] = {
    [LAY_OUT] = {"lay_out", {2, 0, 1}},
    [OPEN] = {"open", {10, 0, 1, 2, 3, 4, 5, 6, 7, 8, 9}},
    [LIST] = {"list", {10, 0, 1, 2, 3, 4, 5, 6, 7, 8, 9}},
    [JOIN] = {"join", {5, 0, 10, 12, 13, 18}},
    [BEGIN] = {"begin", {9, 0, 10, 11, 14, 15, 16, 17, 18, 19}},
    [BEGIN_READ] = {"begin_read", {8, 0, 10, 11, 14, 15, 16, 17, 18}},
    [STEP] = {"step", {18, FILLED, REFILLED, ZEROED, LINKED, CAUGHT_UP, LOST_LINK, EXTENDING, COMMITTED, COPIED, READ_MOVED, READ_ENDED,
                       10, 11, 14, 15, 18, 20, 21}},
    [SERVE] = {"serve", {8, 0, ALONE, ALONE_ZEROED, ALL_FILLED, ALL_ZEROED, BOTH, 26, 27}},
    [LEAVE] = {"leave", {4, 0, 10, 11, 14}},
    [READ] = {"read", {5, 0, 10, 11, 14, 18}},
    [LOCATE] = {"locate", {7, 0, 10, 11, 14, 17, 18, 22}},
    [VIEW] = {"view", {7, 0, 10, 11, 14, 17, 18, 22}},
};

/* The rules. The first have the numbers of the calls other than a step and serving. */
enum { ONE = CALLS, NONE, WIDTH, ALIGNED, INSIDE, WHERE, ROW_COUNT, ROW_ORDER, LISTED, WHOLE, MET, RULES };

static const struct {
    const char *name, *text;
} rules[RULES] = {
    [LAY_OUT] = {"lay_out", "laying out stores into blocks 0 and 1 only, and nothing if refused"},
    [OPEN] = {"open", "opening makes no store into the image"},
    [LIST] = {"list", "listing makes none"},
    [JOIN] = {"join", "joining makes none"},
    [BEGIN] = {"begin", "beginning makes none"},
    [BEGIN_READ] = {"begin_read", "beginning a read makes none"},
    [LEAVE] = {"leave", "leaving makes none"},
    [READ] = {"read", "reading makes none"},
    [LOCATE] = {"locate", "locating makes none"},
    [VIEW] = {"view", "viewing makes none"},
    [ONE] = {"one", "a step that answers Stored or Committed makes one store"},
    [NONE] = {"none", "a step that answers Moved, Extending, Refused, Copied or Bytes makes none"},
    [WIDTH] = {"width", "a store of a step or of serving is eight bytes wide"},
    [ALIGNED] = {"aligned", "a store of a step or of serving is aligned to eight bytes"},
    [INSIDE] = {"inside", "a store of a step or of serving lies in the image that is lent"},
    [WHERE] = {"where", "a step's store is that of the word which its record names"},
    [ROW_COUNT] = {"row_count", "serving makes as many stores as its row of steps, and none if refused"},
    [ROW_ORDER] = {"row_order", "serving stores the words that its row of steps stores, in that order"},
    [LISTED] = {"listed", "each answer is one that the header lists for the call"},
    [WHOLE] = {"whole", "each call that begins ends, and the trace goes on to its end"},
    [MET] = {"met", "each call has given each of its answers"},
};

static struct {
    long count;
    char first[FIRST];
} breaches[RULES];

static long answered[CALLS][ANSWERS], stores[CALLS], widths[CALLS][WIDEST + 1];

/* The call under way, CALLS for none; its number in the trace, its stores so far, the last one's place if it is a word of the image, else the
   image's end; and the image that it is lent. */
static unsigned under_way = CALLS;
static long number, made;
static uint64_t last_word, image, image_bytes;
static int has_ended;

/* Of serving: the words stored, NO_WORD for a store that is none of a word; and how many its row has stored, the first difference among them. */
#define NO_WORD UINT64_MAX
enum { SERVED_MOST = 200000 };
static uint64_t served[SERVED_MOST];
static long in_row, first_other;

/* The answer's name: a refusal is a number. */
static const char *answer_name(unsigned answer)
{
    static const char *const names[] = {"fill",      "refill",    "zero",   "link",       "caught up", "lost link",
                                        "extending", "committed", "copied", "read moved", "read ended", "alone",
                                        "alone, zeroing", "all fill", "all zero", "fill and zero"};
    static char refusal[8];
    if (answer >= FILLED && answer <= BOTH)
        return names[answer - FILLED];
    snprintf(refusal, sizeof refusal, "%u", answer);
    return answer == 0 ? "done" : answer == ODD ? "odd" : refusal;
}

/* Notes a breach: the first in words, the others by their count. */
__attribute__((format(printf, 2, 3))) static void broken(unsigned rule, const char *format, ...)
{
    if (breaches[rule].count++ > 0)
        return;
    va_list values;
    va_start(values, format);
    int length = under_way < CALLS ? snprintf(breaches[rule].first, FIRST, "call %ld, %s: ", number, calls[under_way].name) : 0;
    vsnprintf(breaches[rule].first + length, (size_t)(FIRST - length), format, values);
    va_end(values);
}

/* A store that breaks a rule. */
static void broken_by(unsigned rule, uint64_t at, uint64_t width)
{
    broken(rule, "%" PRIu64 " bytes at byte %" PRId64 " of the image", width, (int64_t)at);
}

/* A store during a call. */
static void see_store(uint64_t address, uint64_t width)
{
    uint64_t at = address - image;
    made++;
    stores[under_way]++;
    widths[under_way][width <= WIDEST ? width : WIDEST]++;
    if (under_way != STEP && under_way != SERVE) {
        if (under_way != LAY_OUT || at >= 2 * BLOCK_BYTES || at + width > 2 * BLOCK_BYTES)
            broken_by(under_way, at, width);
        return;
    }
    int is_inside = at < image_bytes && at + width <= image_bytes;
    last_word = width == 8 && address % 8 == 0 && is_inside ? at : image_bytes;
    if (made <= SERVED_MOST)
        served[made - 1] = last_word == image_bytes ? NO_WORD : last_word / 8;
    if (width != 8)
        broken_by(WIDTH, at, width);
    if (address % 8 != 0)
        broken_by(ALIGNED, at, width);
    if (!is_inside)
        broken_by(INSIDE, at, width);
}

/* The word that a step should have stored. Only a word's store is compared, and only if there is no other: else another rule is broken.
   In serving it is the next word of its row. */
static void see_word(uint64_t word)
{
    if (under_way == SERVE) {
        if (in_row < made && in_row < SERVED_MOST && served[in_row] != NO_WORD && served[in_row] != word && first_other < 0)
            first_other = in_row;
        in_row++;
        return;
    }
    if (made == 1 && last_word != image_bytes && last_word != 8 * word)
        broken(WHERE, "at byte %" PRIu64 " of the image, not %" PRIu64, last_word, 8 * word);
}

static int is_listed(unsigned call, unsigned answer)
{
    const unsigned char *answers = calls[call].answers;
    return memchr(answers + 1, (int)answer, answers[0]) != 0;
}

static int step_stores(unsigned answer)
{
    return answer == FILLED || answer == REFILLED || answer == ZEROED || answer == LINKED || answer == COMMITTED;
}

/* The end of a call. */
static void see_answer(unsigned call, unsigned answer)
{
    if (call != under_way)
        broken(WHOLE, "ended as %s", calls[call].name);
    answered[call][answer]++;
    if (!is_listed(call, answer))
        broken(LISTED, "answer %s", answer_name(answer));
    if (call == STEP && made != step_stores(answer))
        broken(step_stores(answer) ? ONE : NONE, "answer %s, stores %ld", answer_name(answer), made);
    if (call == SERVE && made != in_row)
        broken(ROW_COUNT, "answer %s, stores %ld, its row %ld", answer_name(answer), made, in_row);
    else if (call == SERVE && first_other >= 0)
        broken(ROW_ORDER, "store %ld of %ld is of word %" PRIu64, first_other + 1, made, served[first_other]);
    if (call == LAY_OUT && answer != 0 && made != 0)
        broken(LAY_OUT, "answer %s, stores %ld", answer_name(answer), made);
    under_way = CALLS;
}

static void see_mark(uint64_t address)
{
    if (address >= ANSWER_MARK(0, 0) && address < ANSWER_MARK(CALLS, 0)) {
        uint64_t n = (address - ANSWER_MARK(0, 0)) / 8;
        see_answer((unsigned)(n / ANSWERS), (unsigned)(n % ANSWERS));
        return;
    }
    if (address >= WORD_MARK(0) && address < WORD_MARK(AREA_WORDS)) {
        see_word((address - WORD_MARK(0)) / 8);
        return;
    }
    if (under_way < CALLS)
        broken(WHOLE, "it has not ended");
    if (address >= CALL_MARK(0) && address < CALL_MARK(CALLS)) {
        under_way = (unsigned)((address - CALL_MARK(0)) / 8);
        number++;
        made = 0;
        in_row = 0;
        first_other = -1;
    } else if (address == END_MARK) {
        has_ended = 1;
    } else {
        uint64_t n = (address - LENT_MARK(0, 0)) / 8;
        image = FIRST_IMAGE + 8 * (n % SHIFTS);
        image_bytes = 8 * (n / SHIFTS);
    }
}

/* A line of the trace. ` S address,width` is a store, ` M address,width` a load and a store of one instruction; all others are skipped. */
static void see_line(const char *line)
{
    if (line[0] != ' ' || (line[1] != 'S' && line[1] != 'M'))
        return;
    char *rest;
    uint64_t address = strtoull(line + 3, &rest, 16);
    uint64_t width = strtoull(rest + 1, 0, 10);
    if (address >= MARKS && address < MARKS + MARKS_BYTES)
        see_mark(address);
    else if (under_way < CALLS && address + width > AREA && address < AREA + AREA_BYTES)
        see_store(address, width);
}

/* A line for each call: how often each answer came, refusals by their numbers; stores into the image, and their widths. */
static void print_table(void)
{
    for (unsigned call = 0; call < CALLS; call++) {
        printf("%-10s", calls[call].name);
        for (unsigned i = 1; i <= calls[call].answers[0]; i++) {
            unsigned answer = calls[call].answers[i];
            printf(" %s:%ld", answer_name(answer), answered[call][answer]);
        }
        printf("; stores %ld", stores[call]);
        for (int width = 1; width <= WIDEST; width++)
            if (widths[call][width] > 0)
                printf(", of %d bytes %ld", width, widths[call][width]);
        printf("\n");
    }
}

/* Breaks the last rule for each answer that never came up. */
static void check_met(void)
{
    for (unsigned call = 0; call < CALLS; call++)
        for (unsigned i = 1; i <= calls[call].answers[0]; i++)
            if (answered[call][calls[call].answers[i]] == 0) {
                printf("never met: %s, answer %s\n", calls[call].name, answer_name(calls[call].answers[i]));
                broken(MET, "%s, answer %s", calls[call].name, answer_name(calls[call].answers[i]));
            }
}

/* A line for each rule: `name: text: kept` or how it was broken. Answers how many are broken. */
static int print_rules(int in_part)
{
    int count = 0;
    for (unsigned rule = 0; rule < RULES; rule++) {
        if (rule == STEP || rule == SERVE || (rule == MET && in_part))
            continue;
        printf("%s: %s: ", rules[rule].name, rules[rule].text);
        if (breaches[rule].count > 0)
            printf("BROKEN %ld times, first by %s\n", breaches[rule].count, breaches[rule].first);
        else
            printf("kept\n");
        count += breaches[rule].count > 0;
    }
    return count;
}

/* Goes through the trace in large pieces; answers its count of lines. Lackey writes each line by itself, and a reader that always waits would be
   woken for each, which doubles the time: so it rests a little after a small piece. */
static long read_trace(void)
{
    static char piece[PIECE];
    const struct timespec rest = {0, 2000000};
    long lines = 0;
    size_t kept = 0;
    fcntl(0, F_SETPIPE_SZ, PIECE);
    for (ssize_t count; (count = read(0, piece + kept, PIECE - kept)) > 0;) {
        char *line = piece, *end = piece + kept + count;
        for (char *stop; (stop = memchr(line, '\n', (size_t)(end - line))) != 0; line = stop + 1) {
            *stop = 0;
            see_line(line);
            lines++;
        }
        kept = (size_t)(end - line);
        memmove(piece, line, kept);
        if (count < PIECE / 2)
            nanosleep(&rest, 0);
    }
    return lines;
}

int main(int count, char **arguments)
{
    int in_part = count == 2 && strcmp(arguments[1], "--part") == 0;
    long lines = read_trace();
    if (under_way < CALLS || !has_ended)
        broken(WHOLE, "the trace breaks off");
    printf("%ld lines of trace, %ld calls\n", lines, number);
    print_table();
    if (!in_part)
        check_met();
    return print_rules(in_part) > 0;
}
