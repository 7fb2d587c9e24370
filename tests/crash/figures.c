/* Figures: what the writers were doing when they were killed. */
#include <stdio.h>

#include "crash.h"

/* For 8 points and for 32. */
static struct {
    uint32_t kills;
    uint64_t readings, time; /* and how long all took, in nanoseconds; with a first guess */
} of[2] = {{.readings = 1, .time = 10000}, {.readings = 1, .time = 10000}};

/* Of kills. */
static uint32_t writing, calling, extending, unacknowledged, unopened, third[3];
static uint64_t writes; /* under way at all kills */

/* Of all lives. */
static uint64_t acknowledged, moved, started = 1, starting = 100000;
static uint32_t fresh, openings, full, refused[3];

uint32_t room_of(const struct session *session)
{
    uint32_t chain = session->blocks - session->span - 5;
    return SLOTS * (chain < CHAIN_MOST ? chain : CHAIN_MOST);
}

uint32_t kills(void)
{
    return of[0].kills + of[1].kills;
}

uint64_t starting_time(void)
{
    return starting / started;
}

uint64_t reading_time(uint32_t points)
{
    return of[points == 32].time / of[points == 32].readings;
}

static void count_kill(const struct life *life, const struct session *session, const struct book *book, const struct records *records)
{
    uint32_t under_way = 0, zeroing = 0, room = room_of(session);
    for (uint32_t p = 0; p < session->points; p++) {
        uint32_t phase = records->points[p].head.phase;
        under_way += phase >= STORE_FILLING && phase <= STORE_ZEROING;
        zeroing += phase == STORE_ZEROING;
    }
    of[session->points == 32].kills++;
    writes += under_way;
    writing += under_way > 0;
    extending += zeroing > 0;
    calling += records->calling;
    unacknowledged += life->acknowledged == 0;
    unopened += records->shared.blocks != session->blocks;
    third[book->count < room ? 3 * book->count / room : 2]++;
}

void count_life(const struct life *life, const struct session *session, const struct book *book, const struct records *records)
{
    if (records->began != 0) {
        started++;
        starting += records->began - life->start;
        of[session->points == 32].readings += life->acknowledged;
        of[session->points == 32].time += life->end - records->began;
    }
    acknowledged += life->acknowledged;
    moved += records->moved;
    for (int i = 0; i < 3; i++)
        refused[i] += records->refused[i];
    full += life->full != 0;
    openings += records->shared.blocks == session->blocks;
    fresh += records->shared.blocks == session->blocks && book->count == life->acknowledged;
    if (life->killed)
        count_kill(life, session, book, records);
}

void print_figures(void)
{
    printf("kills: %u, with 8 points %u, with 32 points %u\n", kills(), of[0].kills, of[1].kills);
    printf("  with writes begun and not finished: %u, %.1f of them on average\n", writing, (double)writes / (kills() + !kills()));
    printf("  inside a call of the library: %u\n", calling);
    printf("  while the chain was being extended: %u\n", extending);
    printf("  before the writer's first acknowledgement: %u, of these before it had opened: %u\n", unacknowledged, unopened);
    printf("  in the first third of a file: %u, the second: %u, the last: %u\n", third[0], third[1], third[2]);
    printf("readings acknowledged: %llu\n", (unsigned long long)acknowledged);
    printf("steps that answered Moved: %llu\n", (unsigned long long)moved);
    printf("writes refused by 19: %u, by 20: %u, by 21: %u; writers that ended by these: %u\n", refused[0], refused[1], refused[2], full);
    printf("openings by a writer: %u, of these reopenings of a file with readings: %u\n", openings, openings - fresh);
}
