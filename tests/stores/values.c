/* The values that serving stores, which a trace of addresses does not show. The image is protected while a list is lent: each store into it is caught,
   made alone by a single step of the processor, and its word's value read. They must be those of the row, in order. */
#define _GNU_SOURCE
#include <signal.h>
#include <stdio.h>
#include <stdlib.h>
#include <sys/mman.h>
#include <ucontext.h>
#include <unistd.h>

#include "row.h"
#include "runs.h"

enum { RUNS = 60, SINGLE_STEP = 0x100 };

static struct {
    size_t word;
    uint64_t value;
} seen[ROW_STORES];
static size_t count, total;
static uint64_t *now; /* the word that is being stored */

static void protect(int protection)
{
    if (mprotect((void *)(uintptr_t)AREA, AREA_BYTES, protection) != 0)
        _exit(2);
}

/* A store into the protected image: it is let through, and the processor stops after it. */
static void caught(int signal, siginfo_t *told, void *context)
{
    uintptr_t address = (uintptr_t)told->si_addr;
    if (signal != SIGSEGV || address < AREA || address >= AREA + AREA_BYTES)
        _exit(2);
    now = (uint64_t *)(address / 8 * 8);
    protect(PROT_READ | PROT_WRITE);
    ((ucontext_t *)context)->uc_mcontext.gregs[REG_EFL] |= SINGLE_STEP;
}

static void stored(int signal, siginfo_t *told, void *context)
{
    (void)signal, (void)told;
    if (count < ROW_STORES) {
        seen[count].word = (size_t)(now - image);
        seen[count++].value = *now;
    }
    protect(PROT_READ);
    ((ucontext_t *)context)->uc_mcontext.gregs[REG_EFL] &= ~(greg_t)SINGLE_STEP;
}

static void watch(int is_lent)
{
    if (is_lent) {
        count = 0;
        protect(PROT_READ);
        return;
    }
    protect(PROT_READ | PROT_WRITE);
    for (size_t i = 0; i < count || i < last_row.count; i++)
        if (count != last_row.count || seen[i].word != last_row.stores[i].word || seen[i].value != last_row.stores[i].value) {
            printf("store %zu of serving is not that of its row: %zu stores, its row %zu\n", i + 1, count, last_row.count);
            exit(1);
        }
    total += count;
}

int main(void)
{
    struct sigaction on_store = {.sa_sigaction = caught, .sa_flags = SA_SIGINFO}, on_step = {.sa_sigaction = stored, .sa_flags = SA_SIGINFO};
    if (!map_memory() || sigaction(SIGSEGV, &on_store, 0) != 0 || sigaction(SIGTRAP, &on_step, 0) != 0)
        return 2;
    seed_with(1);
    watching = watch;
    run_served(RUNS, STORE_POINTS);
    printf("%zu stores of serving, each with the value of its row\n", total);
    return 0;
}
