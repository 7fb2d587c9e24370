/* What driver and watcher agree on: where the memory lies, and the marks. A mark is a store to a known address outside the image; in the
   trace it says which image is lent, which call begins, which word a step should have stored, which words in which order a call that serves, and what
   the call has answered. */
#ifndef PLACES_H
#define PLACES_H

#include <stdint.h>

/* The memory that images lie in, which is watched; and the same memory at other addresses, which is not. */
#define AREA UINT64_C(0x200000000000)
#define AGAIN UINT64_C(0x210000000000)
#define AREA_BYTES UINT64_C(0x100000)
#define AREA_WORDS (AREA_BYTES / 8)

/* An image begins at one of these: so many words further on. */
#define FIRST_IMAGE (AREA + 4096)
#define SHIFTS 4

#define MARKS UINT64_C(0x220000000000)
#define MARKS_BYTES UINT64_C(0x4000000)
#define ANSWERS 64 /* numbers for what a call answers */

#define LENT_MARK(words, shift) (MARKS + 8 * (SHIFTS * (uint64_t)(words) + (uint64_t)(shift)))
#define CALL_MARK(call) (MARKS + MARKS_BYTES / 4 + 8 * (uint64_t)(call))
#define WORD_MARK(word) (MARKS + MARKS_BYTES / 2 + 8 * (uint64_t)(word))
#define ANSWER_MARK(call, answer) (MARKS + MARKS_BYTES / 4 * 3 + 8 * (ANSWERS * (uint64_t)(call) + (uint64_t)(answer)))
#define END_MARK (MARKS + MARKS_BYTES - 8)

enum call { LAY_OUT, OPEN, LIST, JOIN, BEGIN, BEGIN_READ, STEP, SERVE, LEAVE, READ, LOCATE, VIEW, CALLS };

/* What a call answers: its refusal, 1 to 27; 0 for none; for a step that is not refused, and for serving by what its row has done, one of these. ODD is
   what no call may answer. */
enum answer {
    FILLED = 32,
    REFILLED,
    ZEROED,
    LINKED,
    CAUGHT_UP,
    LOST_LINK,
    EXTENDING,
    COMMITTED,
    COPIED,
    READ_MOVED,
    READ_ENDED,
    ALONE,        /* a list of one point */
    ALONE_ZEROED, /* that zeroed a log block */
    ALL_FILLED,   /* several points filled runs of several blocks in one round */
    ALL_ZEROED,   /* several zeroed log blocks in one round */
    BOTH,         /* one filled such a run and another zeroed */
    ODD = ANSWERS - 1
};

#endif
