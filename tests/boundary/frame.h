/* Replies of a meter on the wired bus: 68 L L 68, L bytes, their sum, 16. */
#include "paviluko.h"

enum { RECORDS_AT = 19, FRAME_MIN = RECORDS_AT + 2, MEDIUM_AT = 14 };

/* Puts L, the sum and the fixed bytes of a frame of len bytes right, FRAME_MIN at least. */
static void frame_close(uint8_t *frame, size_t len)
{
    uint8_t sum = 0;
    frame[0] = frame[3] = 0x68;
    frame[1] = frame[2] = (uint8_t)(len - 6);
    frame[4] = 0x08;
    frame[6] = 0x72;
    for (size_t i = 4; i < len - 2; i++) {
        sum = (uint8_t)(sum + frame[i]);
    }
    frame[len - 2] = sum;
    frame[len - 1] = 0x16;
}
