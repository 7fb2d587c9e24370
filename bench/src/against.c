/* Two libraries in one program, before and after: cells.c with each. `against REPETITIONS` prints a table of times, all cells of both taking turns;
   `against --count` makes each cell's call 100 times for callgrind to count, and prints the cells' names. */
#define _POSIX_C_SOURCE 199309L
#include <stdint.h>
#include <stdio.h>
#include <stdlib.h>
#include <string.h>
#include <time.h>

#include "cells.h"

extern const side before, after;

enum { CALLS = 100, MOST_CELLS = 32, MOST_REPETITIONS = 1000 };
enum { SLICES = 20, LEAST = 200000 }; /* of a cell and side in a repetition; nanoseconds of a slice */

static const side *const sides[2] = {&before, &after};
static double values[MOST_CELLS][2][MOST_REPETITIONS * SLICES];

static uint64_t clock_now(void)
{
    struct timespec t;
    clock_gettime(CLOCK_MONOTONIC, &t);
    return (uint64_t)t.tv_sec * 1000000000 + (uint64_t)t.tv_nsec;
}

/* Nanoseconds of a call: the work is repeated until its times add up to LEAST. A first time does not count: it fills the caches, which the other side has
   used. */
static double nanoseconds(const side *s)
{
    uint64_t time = 0, calls = 0;
    s->put_back();
    s->work();
    while (time < LEAST) {
        s->put_back();
        uint64_t start = clock_now();
        calls += s->work();
        time += clock_now() - start;
    }
    return (double)time / (double)calls;
}

/* Both sides by turns, in slices so short that what else the machine does slows both alike. */
static void repeat(size_t cell, size_t repetition)
{
    for (int k = 0; k < 2; k++)
        sides[k]->set_up(cell);
    for (size_t slice = 0; slice < SLICES; slice++)
        for (int k = 0; k < 2; k++)
            values[cell][k][repetition * SLICES + slice] = nanoseconds(sides[k]);
}

static int rising(const void *a, const void *b)
{
    double x = *(const double *)a, y = *(const double *)b;
    return (x > y) - (x < y);
}

/* The value that so many quarters of the values lie below. */
static double quartile(double *all, size_t count, size_t quarters)
{
    qsort(all, count, sizeof all[0], rising);
    return all[count * quarters / 4];
}

/* The ratio of after to before: the median of that of neighbouring slices. */
static double ratio(size_t cell, size_t slices)
{
    static double ratios[MOST_REPETITIONS * SLICES];
    for (size_t i = 0; i < slices; i++)
        ratios[i] = values[cell][1][i] / values[cell][0][i];
    return quartile(ratios, slices, 2);
}

/* Nanoseconds in the unit that suits them, with three digits that count. */
static void print_time(double time)
{
    const char *unit = time < 999.5 ? "ns" : "µs";
    double value = time < 999.5 ? time : time / 1000;
    printf(" %.*f %s |", value < 9.995 ? 2 : value < 99.95 ? 1 : 0, value, unit);
}

static void measure(size_t repetitions)
{
    for (size_t r = 0; r < repetitions; r++) {
        fprintf(stderr, "repetition %zu of %zu\n", r + 1, repetitions);
        for (size_t cell = 1; cell < before.cells; cell++)
            repeat(cell, r);
    }
    printf("| | before | after | ratio |\n|---|---:|---:|---:|\n");
    for (size_t cell = 1; cell < before.cells; cell++) {
        size_t slices = repetitions * SLICES;
        double change = ratio(cell, slices);
        printf("| %s |", before.set_up(cell));
        print_time(quartile(values[cell][0], slices, 1));
        print_time(quartile(values[cell][1], slices, 1));
        printf(" %.2f |\n", change);
    }
}

/* Here callgrind writes down what it has counted since the last time. */
__attribute__((noinline, noclone)) void cell_done(void)
{
    __asm__ volatile("");
}

/* The cell's calls, counted inside measured_call. First ones are not counted: a point may have a log to catch up with. */
static const char *count(const side *s, size_t cell)
{
    const char *name = s->set_up(cell);
    s->work();
    for (int i = 0; i < CALLS; i++) {
        s->put_back();
        s->call_once();
    }
    cell_done();
    return name;
}

int main(int argc, char **argv)
{
    if (argc == 2 && strcmp(argv[1], "--count") == 0) {
        for (size_t cell = 0; cell < before.cells; cell++) {
            count(&before, cell);
            printf("%s\n", count(&after, cell));
        }
        return 0;
    }
    size_t repetitions = argc == 2 ? strtoul(argv[1], NULL, 10) : 0;
    if (repetitions < 1 || repetitions > MOST_REPETITIONS) {
        fprintf(stderr, "against REPETITIONS | --count\n");
        return 2;
    }
    measure(repetitions);
    return 0;
}
