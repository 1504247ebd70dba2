/* Variable definitions: read from a setup's data part, measured, and copied. */
#ifndef PLAIN_VARIABLES_H
#define PLAIN_VARIABLES_H

#include <string.h>

#include "memory.h"
#include "state.h"

static bool count_right(uint8_t count)
{
    return 1 <= count && count <= MOST_VARIABLES;
}

static bool any_size_zero(const struct variables *v)
{
    for (unsigned i = 0; i < v->count; i++)
        if (v->list[i].size == 0)
            return true;
    return false;
}

static bool all_end_by(const struct variables *v, uint32_t end)
{
    for (unsigned i = 0; i < v->count; i++)
        if (!ends_by(v->list[i].address, v->list[i].size, end))
            return false;
    return true;
}

static unsigned set_size(const struct variables *v)
{
    unsigned size = 0;
    for (unsigned i = 0; i < v->count; i++)
        size += v->list[i].size;
    return size;
}

/* The variables' bytes, one behind the other. */
static void copy_set(const struct variables *v, const uint8_t *memory, uint8_t *to)
{
    for (unsigned i = 0; i < v->count; i++) {
        memcpy(to, memory + v->list[i].address, v->list[i].size);
        to += v->list[i].size;
    }
}

/* A count, then size and address each. The status says what is wrong with the part; ranges are the caller's. */
static uint8_t read_variables(const uint8_t *part, unsigned length, unsigned width, struct variables *v)
{
    if (length < 1 || length != 1 + part[0] * (1 + width))
        return LOG_GATE_LAYOUT_WRONG;
    if (!count_right(part[0]))
        return LOG_GATE_SIZE_WRONG;
    v->count = part[0];
    part++;
    for (unsigned i = 0; i < v->count; i++, part += 1 + width) {
        v->list[i].size = part[0];
        v->list[i].address = number_at(part + 1, width);
    }
    return any_size_zero(v) ? LOG_GATE_SIZE_WRONG : LOG_GATE_DONE;
}

#endif
