/* Makes calls for the watcher, the same for the same seed: driver [--short] [--seed N] [--runs N]. It checks nothing itself. */
#include <stdio.h>
#include <stdlib.h>
#include <string.h>

#include "runs.h"

static int usage(void)
{
    fprintf(stderr, "driver [--short] [--seed N] [--runs N]\n");
    return 2;
}

int main(int count, char **arguments)
{
    int is_short = 0;
    uint64_t seed = 1;
    size_t runs = 24;
    for (int i = 1; i < count; i++) {
        if (strcmp(arguments[i], "--short") == 0)
            is_short = 1;
        else if (strcmp(arguments[i], "--seed") == 0 && i + 1 < count)
            seed = strtoull(arguments[++i], 0, 10);
        else if (strcmp(arguments[i], "--runs") == 0 && i + 1 < count)
            runs = strtoull(arguments[++i], 0, 10);
        else
            return usage();
    }
    if (!map_memory()) {
        fprintf(stderr, "driver: the memory can't be had at its addresses\n");
        return 2;
    }
    seed_with(seed);
    if (is_short) {
        run_short();
    } else {
        run_directed();
        run_honest();
        run_hostile(runs);
        run_served(runs, 5);
    }
    end_trace();
    return 0;
}
