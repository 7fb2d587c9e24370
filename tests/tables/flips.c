/* Every single bit of an image flipped, one at a time, and the image opened: refused, or which file is shown.
   The images, of 64 blocks, are what 8 points leave that have written readings of 32 bytes, taking turns step by step: one each on an image of zeros, of which
   most blocks are still zeros; and 39 each, when only blocks that the search never gave are. Both files end inside a block. */
#include <stdio.h>
#include <stdlib.h>
#include <string.h>

#include "store.h"

enum { BLOCKS = 64, WORDS = BLOCKS * STORE_BLOCK_WORDS, POINTS = 8, READINGS = 39, READING = 32 };
enum { SUPERBLOCK, LOG, DATA, FREE, PARTS };

static uint64_t image[WORDS], sound[WORDS];
static uint16_t scratch[STORE_SCRATCH], marks[STORE_SCRATCH];
static store_shared shared;
static store_point points[POINTS], reader;
static uint8_t room[STORE_TEXT_MOST]; /* room for the bytes of a read in steps, which no write uses */
static uint8_t file[STORE_FILE_MOST], other[STORE_FILE_MOST];

static void must(uint32_t refused)
{
    if (refused != STORE_DONE) {
        fprintf(stderr, "refused: %s\n", store_reason(refused));
        exit(1);
    }
}

/* All points begin, then take steps in turn until all have committed. */
static void write_readings(uint32_t number)
{
    uint8_t text[READING];
    for (uint32_t p = 0; p < POINTS; p++) {
        for (uint32_t i = 0; i < READING; i++)
            text[i] = (uint8_t)(1 + (17 * p + 29 * number + 5 * i) % 255);
        must(store_begin(image, WORDS, &shared, &points[p], ((size_t)number * POINTS + p) * READING, text, READING));
    }
    for (uint32_t busy = POINTS; busy > 0;)
        for (uint32_t p = 0; p < POINTS; p++)
            if (points[p].head.phase != STORE_IDLE) {
                store_answer answer = store_step(image, WORDS, &shared, &points[p], room);
                must(answer.kind == STORE_REFUSED ? answer.value : STORE_DONE);
                busy -= answer.kind == STORE_COMMITTED;
            }
}

/* Opens the image and reads the file that it shows; answers the refusal. */
static uint32_t shown(uint8_t *bytes, uint32_t *length)
{
    store_opened opened = store_open(image, WORDS, scratch, STORE_SCRATCH, &shared);
    if (opened.refused != STORE_DONE)
        return opened.refused;
    must(store_join(image, WORDS, &shared, 0, &reader));
    store_count got = store_read(image, WORDS, &shared, &reader, 0, bytes, opened.length);
    must(got.refused);
    *length = got.count;
    return STORE_DONE;
}

static int part_of(size_t word)
{
    uint16_t mark = marks[word / STORE_BLOCK_WORDS];
    return word < STORE_BLOCK_WORDS ? SUPERBLOCK : mark == UINT16_MAX ? LOG : mark > 0 ? DATA : FREE;
}

/* Tries every flip on what so many readings of each point leave, and prints a row for each part of the image. */
static void try_flips(const char *age, uint32_t readings)
{
    memset(image, 0, sizeof image);
    must(store_lay_out(image, WORDS));
    must(store_open(image, WORDS, scratch, STORE_SCRATCH, &shared).refused);
    for (uint32_t p = 0; p < POINTS; p++)
        must(store_join(image, WORDS, &shared, p, &points[p]));
    for (uint32_t number = 0; number < readings; number++)
        write_readings(number);
    memcpy(sound, image, sizeof image);
    uint32_t length, now;
    must(shown(file, &length));
    memcpy(marks, scratch, sizeof scratch);

    unsigned long flips[PARTS] = {0}, refused[PARTS] = {0}, same[PARTS] = {0};
    for (size_t word = 0; word < WORDS; word++)
        for (int bit = 0; bit < 64; bit++) {
            image[word] ^= UINT64_C(1) << bit;
            int part = part_of(word);
            flips[part]++;
            if (shown(other, &now) != STORE_DONE)
                refused[part]++;
            else if (now == length && memcmp(other, file, length) == 0)
                same[part]++;
            image[word] = sound[word];
        }
    static const char *const names[PARTS] = {"superblock", "log blocks", "blocks of the file", "free blocks"};
    for (int part = 0; part < PARTS; part++) {
        double all = (double)flips[part] / 100;
        unsigned long another = flips[part] - refused[part] - same[part];
        printf("| %s, %s | %lu | %.2f %% | %.2f %% | %.2f %% |\n", names[part], age, flips[part], (double)refused[part] / all, (double)another / all,
               (double)same[part] / all);
    }
}

int main(void)
{
    printf("| one bit flipped in | flips | refused | opens and shows another file | opens and shows the same file |\n|---|---:|---:|---:|---:|\n");
    try_flips("young image", 1);
    try_flips("old image", READINGS);
    return 0;
}
