/* The reader of answers, one byte a call. */
#ifndef PLAIN_READER_H
#define PLAIN_READER_H

#include <string.h>

#include "line.h"

static uint8_t phase_after(const struct reader *r)
{
    unsigned data = is_error(r->status) ? 0 : r->expected;
    return r->have < data ? READER_DATA : READER_SUM;
}

static void open_answer(struct reader *r, uint8_t status)
{
    r->status = status;
    r->have = 0;
    r->sum = status;
    r->phase = phase_after(r);
}

static void keep_data(struct reader *r, uint8_t byte)
{
    r->body[r->have++] = byte;
    r->sum = (uint8_t)(r->sum + byte);
    r->phase = phase_after(r);
}

/* The sum byte: data are handed out only where all adds up. */
static log_gate_read finish_answer(struct reader *r, uint8_t byte, uint8_t *data)
{
    r->phase = READER_IDLE;
    if ((uint8_t)(r->sum + byte) != 0)
        return (log_gate_read){.refusal = LOG_GATE_SUM_REFUSED};
    memcpy(data, r->body, r->have);
    return (log_gate_read){LOG_GATE_TAKEN, 1, r->status, r->have};
}

static log_gate_read read_byte(struct reader *r, uint8_t byte, uint8_t *data)
{
    bool waited = r->waiting;
    r->waiting = !waited && byte == START;
    if (r->waiting)
        return (log_gate_read){0};
    if (waited && byte != START)
        open_answer(r, byte);
    else if (r->phase == READER_DATA)
        keep_data(r, byte);
    else if (r->phase == READER_SUM)
        return finish_answer(r, byte, data);
    return (log_gate_read){0};
}

#endif
