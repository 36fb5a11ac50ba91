/* The lengths of buffers to lend where so many bytes are needed: all that are near none and near what is needed, and of those
 * between them one in so many. */
#include <stddef.h>

enum { NEAR = 40 };

static size_t next_room(size_t room, size_t need, size_t step)
{
    size_t near = need < NEAR ? 0 : need - NEAR;
    if (room < NEAR || room >= near) {
        return room + 1;
    }
    return room + step < near ? room + step : near;
}
