/* The watcher: lays images out, starts writers on them, kills each at a random moment and checks what it left.

   crash [--kills N] [--seed N] [--save FILE] [--find] [--spare N] [--early]
   The same seed gives the same images and readings; the moments are the machine's. --save keeps the image of the last fault. --find ends at the first
   fault, and fails if there is none, or if it shows without a kill: --spare lets so many writers fill their files before the first is killed.
   --early lets writers acknowledge one step too early. */
#define _GNU_SOURCE
#include <stdio.h>
#include <stdlib.h>
#include <string.h>
#include <sys/mman.h>
#include <sys/prctl.h>

#include "crash.h"

static const uint64_t MINUTE = 60000000000; /* a writer that is spared fills its file in far less */

static struct {
    uint32_t kills, spare;
    uint64_t seed;
    const char *save;
    int find, early;
} wanted = {.kills = 200, .seed = 1};

static uint64_t dice;
static struct session session;
static struct book book;
static struct records *records;
static struct life life;       /* of the writer at work, or the last one */
static int file_ends = 1;      /* the next writer gets a fresh file */
static uint32_t file_kills;    /* that this file has yet to stand */
static uint32_t ahead, layings, passed, failed;

/* A fresh file: 8 points and 32 by turns, an image that is too small or large enough, readings close together or far apart. */
static void lay_out(void)
{
    static const uint32_t sizes[] = {64, 96, 160, 256, 384, 640, 1024};
    session.blocks = sizes[below(&dice, sizeof sizes / sizeof sizes[0])];
    session.points = session.points == 8 ? 32 : 8;
    session.span = 2 + below(&dice, below(&dice, 4) == 0 ? 6 : session.blocks / 3);
    if (session.span > STORE_VIRTUAL_BLOCKS)
        session.span = STORE_VIRTUAL_BLOCKS;
    image_lay_out(session.blocks, &dice);
    book_empty(&book);
    file_kills = 4 + below(&dice, 24);
    layings++;
}

/* A random time to wait: while the writer opens and joins or soon after; anywhere in the time that it takes then to fill the file; or, so that a file's
   kills are spread over it, in the next kill's share of that time. It is reckoned by what starting and a reading took up to now, so that the spread
   is alike on a fast machine and on a slow one. */
static uint64_t random_time(void)
{
    uint32_t room = room_of(&session), way = below(&dice, 8);
    uint64_t filling = reading_time(session.points) * (4 * SLOTS + (room > book.count ? room - book.count : 0));
    if (way == 0)
        return draw(&dice) % (2 * starting_time());
    return starting_time() + draw(&dice) % (way < 4 ? filling : 2 * filling / (file_kills + 1));
}

/* Whether what the writer did and left is right. */
static int all_agrees(void)
{
    uint32_t more = 0;
    uint64_t *image = image_map(session.blocks, 0);
    const char *found = check(image, &session, &book, &more);
    if (life.complaint[0] != 0)
        found = life.complaint;
    if (found)
        printf("%s after %u kills, %u points, %u blocks: %s\n", wanted.find ? "found" : "FAILED", kills(), session.points, session.blocks, found);
    if (found && wanted.save)
        image_save(image, session.blocks, wanted.save);
    image_unmap(image, session.blocks);
    ahead += more;
    return found == NULL;
}

/* A writer's life, from its start to its kill or its own end, and what it leaves. */
static void one_round(void)
{
    static const uint32_t bursts[] = {1, 16, 200};
    static uint32_t lives;
    if (file_ends)
        lay_out();
    session.seed = draw(&dice);
    session.burst = bursts[below(&dice, 3)];
    life_start(&life, &session, &book, records, wanted.early);
    life_watch(&life, &session, &book, lives++ < wanted.spare ? MINUTE : random_time());
    int in_time = life.ended || lives > wanted.spare;
    life_end(&life, &session, &book);
    if (!in_time)
        snprintf(life.complaint, sizeof life.complaint, "a writer that is spared has not ended after a minute");
    count_life(&life, &session, &book, records);
    int agrees = all_agrees();
    passed += agrees && life.killed;
    failed += !agrees;
    file_kills -= life.killed != 0;
    file_ends = !agrees || life.full || file_kills == 0;
}

static void take_options(int count, char **options)
{
    for (int i = 1; i < count; i++) {
        const char *value = i + 1 < count ? options[i + 1] : "";
        if (strcmp(options[i], "--find") == 0)
            wanted.find = 1;
        else if (strcmp(options[i], "--early") == 0)
            wanted.early = 1;
        else if (strcmp(options[i], "--kills") == 0)
            wanted.kills = (uint32_t)strtoul(value, NULL, 10), i++;
        else if (strcmp(options[i], "--spare") == 0)
            wanted.spare = (uint32_t)strtoul(value, NULL, 10), i++;
        else if (strcmp(options[i], "--seed") == 0)
            wanted.seed = strtoull(value, NULL, 10), i++;
        else if (strcmp(options[i], "--save") == 0)
            wanted.save = value, i++;
        else {
            fprintf(stderr, "unknown option %s\n", options[i]);
            exit(2);
        }
    }
}

int main(int count, char **options)
{
    take_options(count, options);
    prctl(PR_SET_TIMERSLACK, 1);
    dice = wanted.seed;
    image_make();
    records = mmap(NULL, sizeof *records, PROT_READ | PROT_WRITE, MAP_SHARED | MAP_ANONYMOUS, -1, 0);
    must(records != MAP_FAILED, "the records");
    while (kills() < wanted.kills && !(wanted.find && failed > 0))
        one_round();
    if (wanted.find) {
        if (failed == 0)
            printf("not found in %u kills\n", kills());
        return failed == 0 || kills() == 0;
    }
    print_figures();
    printf("readings found one ahead of their acknowledgement: %u\n", ahead);
    printf("layings out: %u\n", layings);
    printf("%u passed, %u failed\n", passed, failed);
    return failed > 0;
}
