/* Readings, made from session, point and number alone: writer and watcher agree on them without a message. */
#include <string.h>

#include "crash.h"

/* 8 to 600 bytes, now and then up to 1,024, at any byte of the part of the file that is in use; that part grows with the number. */
void reading_of(const struct session *session, uint32_t point, uint32_t number, struct reading *reading)
{
    uint64_t dice = session->seed + number * (uint64_t)STORE_POINTS + point;
    dice = draw(&dice);
    uint32_t most = below(&dice, 16) == 0 ? STORE_TEXT_MOST : 600;
    uint32_t reach = number + 1 < session->span / 2 ? 2 * BLOCK * (number + 1) : BLOCK * session->span;
    reading->size = 8 + below(&dice, most - 7);
    reading->offset = below(&dice, reach - reading->size + 1);
    for (size_t i = 0; i < sizeof reading->text; i += 8) {
        uint64_t bytes = draw(&dice);
        memcpy(reading->text + i, &bytes, 8);
    }
}
