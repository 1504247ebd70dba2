/* Commands for the gate's own program: sent over the port, collected once, and ended by a result. */
#ifndef PLAIN_APPLICATION_H
#define PLAIN_APPLICATION_H

#include <stdbool.h>
#include <string.h>

#include "state.h"

/* From its acceptance until its result is in, collected or not. */
static bool is_pending(const struct application *a)
{
    return a->phase == COMMAND_WAITS || a->phase == COMMAND_COLLECTED;
}

static uint8_t send_command(struct application *a, const uint8_t *body, unsigned length)
{
    if (is_pending(a))
        return LOG_GATE_BUSY;
    if (length == 0)
        return LOG_GATE_LAYOUT_WRONG;
    a->phase = COMMAND_WAITS;
    a->count = (uint8_t)length;
    a->result = 0;
    memcpy(a->command, body, length);
    return LOG_GATE_DONE;
}

static uint8_t result_byte(const struct application *a)
{
    if (is_pending(a))
        return LOG_GATE_RESULT_DUE;
    return a->phase == COMMAND_ENDED ? a->result : LOG_GATE_NO_COMMAND;
}

/* How many bytes the new command has; 0 where nothing is new. */
static size_t collect_command(struct application *a, uint8_t *out)
{
    if (a->phase != COMMAND_WAITS)
        return 0;
    memcpy(out, a->command, a->count);
    a->phase = COMMAND_COLLECTED;
    return a->count;
}

static bool result_taken(const struct application *a, uint8_t result)
{
    return result <= LOG_GATE_MOST_RESULT && a->phase == COMMAND_COLLECTED;
}

static void end_command(struct application *a, uint8_t result)
{
    a->phase = COMMAND_ENDED;
    a->count = 0;
    a->result = result;
}

#endif
