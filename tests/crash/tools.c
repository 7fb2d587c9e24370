/* Random numbers, the clock, and an end where the system fails. */
#define _GNU_SOURCE
#include <stdio.h>
#include <stdlib.h>
#include <time.h>

#include "crash.h"

/* splitmix64 */
uint64_t draw(uint64_t *dice)
{
    uint64_t x = *dice += 0x9E3779B97F4A7C15u;
    x = (x ^ x >> 30) * 0xBF58476D1CE4E5B9u;
    x = (x ^ x >> 27) * 0x94D049BB133111EBu;
    return x ^ x >> 31;
}

uint32_t below(uint64_t *dice, uint32_t bound)
{
    return (uint32_t)(draw(dice) % bound);
}

uint64_t now(void)
{
    struct timespec time;
    clock_gettime(CLOCK_MONOTONIC, &time);
    return (uint64_t)time.tv_sec * 1000000000u + (uint64_t)time.tv_nsec;
}

void must(int holds, const char *what)
{
    if (!holds) {
        perror(what);
        exit(2);
    }
}
