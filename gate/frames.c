#include "frames.h"

#include <string.h>

void frames_take(struct frames *f, const uint8_t *bytes, size_t length, uint64_t now)
{
    size_t room = FRAMES_ROOM - f->length, taken = length < room ? length : room;
    memcpy(f->bytes + f->length, bytes, taken);
    f->length += taken;
    f->last = now;
}

int frames_is_over(const struct frames *f, uint64_t now, uint64_t silence)
{
    return f->length > 0 && now >= f->last + silence;
}

void frames_begin(struct frames *f)
{
    f->length = 0;
}
