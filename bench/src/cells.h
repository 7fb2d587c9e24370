/* What bench/against measures of one library: cells.c, compiled once for each side with that side's own header. */
#include <stddef.h>

typedef struct side {
    size_t cells;
    /* Brings the memory to where the calls of cell i begin; its name. */
    const char *(*set_up)(size_t i);
    /* Puts the records back, for the same calls again. */
    void (*put_back)(void);
    /* The cell's calls: how many. */
    size_t (*work)(void);
    /* One of them, in the function measured_call. Cell 0 is no call, only what that takes. */
    void (*call_once)(void);
} side;
