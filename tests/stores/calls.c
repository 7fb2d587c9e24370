#define _GNU_SOURCE
#include "calls.h"

#include <sys/mman.h>
#include <unistd.h>

#include "row.h"
#include "stored.h"

uint64_t *image;
size_t words;
store_shared shared;
store_point points[STORE_POINTS];
struct row last_row;
void (*watching)(int is_lent);

static size_t shift_now;
static int memory;
static uint64_t state;
static store_head heads[LISTED_MOST]; /* a list's records and answers */
static uint16_t tables[LISTED_MOST][256];
static uint8_t texts[LISTED_MOST][1024];
static store_served answers[LISTED_MOST];
static uint16_t scratch[STORE_SCRATCH + 8], rows[STORE_VIRTUAL_BLOCKS];
static uint8_t text[TEXT_BYTES], list_text[LIST_BYTES], buffer[ROOM]; /* the buffer is also the room for the bytes of a read in steps */

uint64_t any(void)
{
    state ^= state << 13;
    state ^= state >> 7;
    state ^= state << 17;
    return state;
}

size_t below(size_t limit)
{
    return (size_t)((any() >> 11) % limit);
}

void seed_with(uint64_t seed)
{
    state = (seed + 1) * UINT64_C(0x9E3779B97F4A7C15);
    state += !state;
    for (size_t i = 0; i < TEXT_BYTES; i++)
        text[i] = (uint8_t)(any() >> 32);
    for (size_t i = 0; i < LIST_BYTES; i++)
        list_text[i] = (uint8_t)(text[i % TEXT_BYTES] + i / TEXT_BYTES);
}

/* Whether `bytes` of a file, or of no file, can be mapped at an address. */
static int mapped(uint64_t address, uint64_t bytes, int flags, int file)
{
    void *wanted = (void *)(uintptr_t)address;
    return mmap(wanted, bytes, PROT_READ | PROT_WRITE, flags | MAP_FIXED_NOREPLACE, file, 0) == wanted;
}

int map_memory(void)
{
    memory = memfd_create("image", 0);
    return memory >= 0 && ftruncate(memory, (off_t)AREA_BYTES) == 0 && mapped(AREA, AREA_BYTES, MAP_SHARED, memory)
        && mapped(AGAIN, AREA_BYTES, MAP_SHARED, memory) && mapped(MARKS, MARKS_BYTES, MAP_PRIVATE | MAP_ANONYMOUS | MAP_NORESERVE, -1);
}

/* Zeros come from the system, which leaves no line in the trace. */
void lend(size_t blocks, size_t shift)
{
    if (ftruncate(memory, 0) != 0 || ftruncate(memory, (off_t)AREA_BYTES) != 0)
        _exit(2);
    shift_now = shift;
    image = (uint64_t *)(uintptr_t)FIRST_IMAGE + shift;
    words = STORE_BLOCK_WORDS * blocks;
    size_t old = blocks < 12 ? words : STORE_BLOCK_WORDS * (size_t)12;
    for (size_t w = 0; w < old; w++)
        image[w] = ~(uint64_t)w;
}

/* Nothing that the program reads or writes moves across a mark. */
static void mark(uint64_t address)
{
    __asm__ volatile("" ::: "memory");
    *(volatile uint64_t *)(uintptr_t)address = 0;
    __asm__ volatile("" ::: "memory");
}

static void before(enum call call)
{
    mark(LENT_MARK(words, shift_now));
    mark(CALL_MARK(call));
}

static uint32_t after(enum call call, uint32_t refused)
{
    mark(ANSWER_MARK(call, refused <= STORE_LISTED_TWICE ? refused : ODD));
    return refused;
}

void end_trace(void)
{
    mark(END_MARK);
}

static uint64_t digest_of(uint64_t sum, const void *numbers, size_t bytes)
{
    for (size_t i = 0; i < bytes / 4; i++)
        sum = (sum ^ ((const uint32_t *)numbers)[i]) * UINT64_C(0x100000001B3);
    return sum;
}

uint64_t digest(void)
{
    return digest_of(digest_of(digest_of(1, image, 8 * words), &shared, sizeof shared), points, sizeof points);
}

uint32_t lay_out(void)
{
    before(LAY_OUT);
    return after(LAY_OUT, store_lay_out(image, words));
}

uint32_t open_image(size_t places)
{
    before(OPEN);
    return after(OPEN, store_open(image, words, scratch, places, &shared).refused);
}

uint32_t list(size_t places)
{
    before(LIST);
    return after(LIST, store_list(image, words, scratch, places, rows).refused);
}

uint32_t join(uint32_t number, store_point *point)
{
    before(JOIN);
    return after(JOIN, store_join(image, words, &shared, number, point));
}

uint32_t begin(store_point *point, size_t offset, size_t size)
{
    before(BEGIN);
    return after(BEGIN, store_begin(image, words, &shared, point, offset, text, size));
}

uint32_t begin_read(store_point *point, size_t offset, size_t size)
{
    before(BEGIN_READ);
    return after(BEGIN_READ, store_begin_read(image, words, &shared, point, offset, size));
}

/* By what a list is refused, 0 for nothing. */
static uint32_t refusal_of(size_t first, size_t n, const store_write *writes, size_t given, size_t size)
{
    size_t sum = 0;
    for (size_t i = 0; i < given; i++)
        sum += writes[i].size;
    if (n < 1 || n > STORE_POINTS || given != n || sum != size)
        return STORE_NOT_ONE_EACH;
    for (size_t i = 0; i < n; i++)
        for (size_t k = 0; k < i; k++)
            if (points[first + i].head.number == points[first + k].head.number)
                return STORE_LISTED_TWICE;
    return STORE_DONE;
}

/* Whether image, shared record and the n records are those of the row. */
static int is_row(size_t n)
{
    if (memcmp(last_row.image, image, 8 * words) != 0 || memcmp(&last_row.shared, &shared, sizeof shared) != 0)
        return 0;
    for (size_t i = 0; i < n; i++)
        if (memcmp(&last_row.points[i].head, &heads[i], sizeof heads[i]) != 0 || memcmp(last_row.points[i].table, tables[i], sizeof tables[i]) != 0
            || memcmp(last_row.points[i].text, texts[i], sizeof texts[i]) != 0)
            return 0;
    return 1;
}

/* What a list that was served comes to, by its row. */
static uint32_t served_as(size_t n)
{
    if (n == 1)
        return last_row.zeroing > 0 ? ALONE_ZEROED : ALONE;
    return last_row.both ? BOTH : last_row.zeroing > 1 ? ALL_ZEROED : last_row.filling > 1 ? ALL_FILLED : 0;
}

uint32_t serve(size_t first, size_t n, const store_write *writes, size_t given, size_t size)
{
    size_t kept = n < STORE_POINTS ? n : STORE_POINTS;
    memcpy(last_row.image, image, 8 * words);
    last_row.shared = shared;
    for (size_t i = 0; i < n; i++)
        store_put(heads, tables, texts, i, &points[first + (i < kept ? i : 0)]);
    for (size_t i = 0; i < kept; i++)
        last_row.points[i] = points[first + i];
    uint32_t expected = refusal_of(first, n, writes, given, size);
    last_row.count = 0;
    if (expected == STORE_DONE)
        make_row(&last_row, words, n, writes, list_text);
    if (watching)
        watching(1);
    before(SERVE);
    uint32_t refused = store_serve(image, words, &shared, heads, n, tables, n, texts, n, answers, n, writes, given, list_text, size);
    for (size_t i = 0; i < last_row.count; i++)
        mark(WORD_MARK(last_row.stores[i].word % AREA_WORDS));
    int same = refused == expected && is_row(kept) && (refused || memcmp(answers, last_row.answers, n * sizeof *answers) == 0);
    mark(ANSWER_MARK(SERVE, !same ? ODD : refused ? refused : served_as(n)));
    if (watching)
        watching(0);
    for (size_t i = 0; i < kept; i++)
        store_get(heads, tables, texts, i, &points[first + i]);
    return refused;
}

uint32_t leave(const store_point *point)
{
    before(LEAVE);
    return after(LEAVE, store_leave(image, words, &shared, point));
}

uint32_t read_file(const store_point *point, size_t offset, size_t room)
{
    before(READ);
    return after(READ, store_read(image, words, &shared, point, offset, buffer, room).refused);
}

/* What a step has answered, and by what. */
static uint32_t answer_of(store_answer answer, const store_head *head)
{
    int zeroing = head->phase == STORE_ZEROING;
    switch (answer.kind) {
    case STORE_STORED:
        if (zeroing)
            return head->position < STORE_BLOCK_WORDS ? ZEROED : LINKED;
        return head->phase == STORE_FILLING ? FILLED : REFILLED;
    case STORE_MOVED:
        return head->phase == STORE_READING ? READ_MOVED : zeroing ? LOST_LINK : CAUGHT_UP;
    case STORE_EXTENDING:
        return EXTENDING;
    case STORE_COMMITTED:
        return COMMITTED;
    case STORE_COPIED:
        return COPIED;
    case STORE_BYTES:
        return READ_ENDED;
    default:
        return answer.kind == STORE_REFUSED && answer.value >= 1 && answer.value <= STORE_NOT_MAPPED ? answer.value : ODD;
    }
}

store_answer step(store_point *point)
{
    store_head head = point->head;
    before(STEP);
    store_answer answer = store_step(image, words, &shared, point, buffer);
    if (has_stored(answer))
        mark(WORD_MARK(answer.word % AREA_WORDS));
    mark(ANSWER_MARK(STEP, has_stored(answer) || answer.word == 0 ? answer_of(answer, &head) : ODD));
    return answer;
}

uint32_t look(const store_point *point, size_t block)
{
    before(LOCATE);
    store_count found = store_locate(image, words, &shared, point, block);
    after(LOCATE, found.refused);
    before(VIEW);
    const uint64_t *view = store_view(image, words, &shared, point, block);
    const uint64_t *wanted = found.refused ? (const uint64_t *)0 : image + STORE_BLOCK_WORDS * (size_t)found.count;
    after(VIEW, view == wanted ? found.refused : ODD);
    return found.refused;
}
