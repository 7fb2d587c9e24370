/* Puts a wrong store into a copy of the library. In the copy one function is renamed to honest_ and its name; this file defines it anew, by one of
   the WRONG_ below. Each wrong store gives memory the value that it has or that the honest step gives it: what a call leaves and answers is the
   same as ever, so nothing that compares the memory before and after a call could find it. */
#include "places.h"
#include "row.h"
#include "stored.h"

/* Memory gets its own value, by one store of the type's width. */
#define STORE_AGAIN(type, place) (*(volatile type *)(place) = *(volatile type *)(place))

#ifdef WRONG_CALL
/* The call named adds 0 to word WRONG_WORD of the image, its first argument, and goes on as ever. */
#define TEXT(name) TEXT_OF(name)
#define TEXT_OF(name) #name
__asm__(".text\n"
        ".globl " TEXT(WRONG_CALL) "\n" TEXT(WRONG_CALL) ":\n"
        "addq $0, 8*" TEXT(WRONG_WORD) "(%rdi)\n"
        "jmp honest_" TEXT(WRONG_CALL) "\n");
#else

/* Two words, and a word that begins in the middle of another. */
typedef uint64_t pair __attribute__((vector_size(16), aligned(8)));
typedef uint64_t uneven __attribute__((aligned(4)));

#ifdef WRONG_SERVE
/* The honest call works unseen; its row, made on copies, is then stored once more where it is seen: with something wrong at store WRONG_AT. Each word is
   given its values in turn, and has the right one in the end. */
__typeof__(store_serve_parts) honest_store_serve_parts;
enum { NOTHING, WIDER, SWAPPED, LESS, TWICE, NEIGHBOUR, LAST_VALUE, WRONG_AT = 20 };
static struct row made;

/* The value that the word gets last. */
static uint64_t last_value(size_t k)
{
    uint64_t value = made.stores[k].value;
    for (size_t i = k; i < made.count; i++)
        if (made.stores[i].word == made.stores[k].word)
            value = made.stores[i].value;
    return value;
}

static void store_row(uint64_t *image)
{
    for (size_t i = 0; i < made.count; i++) {
        size_t k = WRONG_SERVE == SWAPPED && (i == WRONG_AT || i == WRONG_AT + 1) ? 2 * WRONG_AT + 1 - i : i;
        volatile uint64_t *word = image + made.stores[k].word;
        if (i == WRONG_AT && WRONG_SERVE == LESS)
            continue;
        if (i == WRONG_AT && WRONG_SERVE == WIDER)
            STORE_AGAIN(pair, word - 1);
        else if (i == WRONG_AT && WRONG_SERVE == NEIGHBOUR)
            STORE_AGAIN(uint64_t, word - 1);
        else
            *word = WRONG_SERVE == LAST_VALUE ? last_value(k) : made.stores[k].value;
        if (i == WRONG_AT && WRONG_SERVE == TWICE)
            STORE_AGAIN(uint64_t, word);
    }
}

uint32_t store_serve_parts(uint64_t *image, size_t words, uint32_t *numbers, uint64_t *taken, store_head *heads, size_t head_count,
                           uint16_t (*tables)[256], size_t table_count, uint8_t (*texts)[1024], size_t text_count, store_served *answers,
                           size_t answer_count, const store_write *writes, size_t write_count, const uint8_t *bytes, size_t size)
{
    uint64_t *unseen = (uint64_t *)((uintptr_t)image - (uintptr_t)AREA + (uintptr_t)AGAIN);
    memcpy(made.image, image, 8 * words);
    memcpy(&made.shared, numbers, offsetof(store_shared, taken));
    memcpy(made.shared.taken, taken, sizeof made.shared.taken);
    for (size_t i = 0; i < head_count && i < STORE_POINTS; i++)
        store_get(heads, tables, texts, i, &made.points[i]);
    uint32_t refused = honest_store_serve_parts(unseen, words, numbers, taken, heads, head_count, tables, table_count, texts, text_count, answers,
                                                answer_count, writes, write_count, bytes, size);
    if (refused == STORE_DONE) {
        make_row(&made, words, head_count, writes, bytes);
        store_row(image);
    }
    return refused;
}
#else

__typeof__(store_step) honest_store_step;

/* What a step does that has stored a word: beside its store, or in place of it where the honest step works unseen. */
static void when_stored(uint64_t *word, uint64_t *end)
{
    (void)word, (void)end;
#if defined WRONG_SECOND
    STORE_AGAIN(uint64_t, word);
#elif defined WRONG_SIXTEEN
    STORE_AGAIN(pair, word - 1);
#elif defined WRONG_HALVES
    STORE_AGAIN(uint32_t, word);
    STORE_AGAIN(uint32_t, (uint32_t *)word + 1);
#elif defined WRONG_UNALIGNED
    STORE_AGAIN(uneven, (uint32_t *)word - 1);
#elif defined WRONG_NEIGHBOUR
    STORE_AGAIN(uint64_t, word - 1);
#elif defined WRONG_OUTSIDE
    STORE_AGAIN(uint64_t, end);
#endif
}

/* And one that has stored nothing. */
static void when_not(uint64_t *image)
{
    (void)image;
#if defined WRONG_UNSTORED
    STORE_AGAIN(uint64_t, image);
#endif
}

/* Whether it is the image that is watched; all is as ever on the copies on which the driver makes a row. */
static int is_watched(const uint64_t *image)
{
    return (uintptr_t)image >= AREA && (uintptr_t)image < AREA + AREA_BYTES;
}

/* With UNSEEN the honest step works at the other addresses of the same memory: its store is made, but not seen. */
store_answer store_step(uint64_t *image, size_t words, store_shared *shared, store_point *point, uint8_t *bytes)
{
    store_head before = point->head;
    uint64_t *worked_on = image;
    if (!is_watched(image))
        return honest_store_step(image, words, shared, point, bytes);
#ifdef UNSEEN
    worked_on = (uint64_t *)((uintptr_t)image - (uintptr_t)AREA + (uintptr_t)AGAIN);
#endif
    store_answer answer = honest_store_step(worked_on, words, shared, point, bytes);
    if (has_stored(answer))
        when_stored(image + stored_word(answer, &before, &point->head), image + words);
    else
        when_not(image);
#ifdef WRONG_TOLD
    answer.word += has_stored(answer) ? 1 : 0;
#endif
    return answer;
}
#endif
#endif
