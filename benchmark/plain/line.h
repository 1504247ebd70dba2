/* The line: doubling, sums, and the receiver of messages. */
#ifndef PLAIN_LINE_H
#define PLAIN_LINE_H

#include <stdbool.h>

#include "state.h"

enum { START = 0x2B, FAST = 0xC0 };

/* Bits 5 and 4 of a fast command give its data length as 0, 2, 4 or 6. */
static uint8_t fast_length(uint8_t command)
{
    return (uint8_t)((command >> 4 & 3) * 2);
}

static bool is_error(uint8_t status)
{
    return (status & 0x80) != 0;
}

/* A writer: where the next byte goes, and the sum so far. */
struct writer {
    uint8_t *out;
    size_t length;
    uint8_t sum;
};

/* The start byte and the code behind it, which are never doubled. */
static struct writer begin_writing(uint8_t *out, uint8_t code)
{
    out[0] = START;
    out[1] = code;
    return (struct writer){out, 2, code};
}

static void put(struct writer *w, uint8_t byte)
{
    w->out[w->length++] = byte;
    if (byte == START)
        w->out[w->length++] = START;
    w->sum = (uint8_t)(w->sum + byte);
}

static void put_all(struct writer *w, const uint8_t *bytes, size_t length)
{
    for (size_t i = 0; i < length; i++)
        put(w, bytes[i]);
}

static size_t finish_writing(struct writer *w)
{
    put(w, (uint8_t)-w->sum);
    return w->length;
}

static void open_message(struct receiver *r, uint8_t command)
{
    r->command = command;
    r->have = 0;
    r->sum = command;
    r->length = command < FAST ? 0 : fast_length(command);
    r->phase = command < FAST ? LENGTH_NEXT : r->length > 0 ? DATA_NEXT : SUM_NEXT;
}

/* True with the sum byte of a message. Data above 64 are counted and summed, and not kept. */
static bool take_literal(struct receiver *r, uint8_t *body, uint8_t byte)
{
    if (r->phase == IDLE)
        return false;
    r->sum = (uint8_t)(r->sum + byte);
    switch (r->phase) {
    case LENGTH_NEXT:
        r->length = byte;
        break;
    case DATA_NEXT:
        if (r->have < MOST_DATA)
            body[r->have] = byte;
        r->have++;
        break;
    default:
        r->phase = IDLE;
        return true;
    }
    r->phase = r->have < r->length ? DATA_NEXT : SUM_NEXT;
    return false;
}

/* True with the last byte of a message, whose sum is then 0 where it is right. */
static bool take_byte(struct receiver *r, uint8_t *body, uint8_t byte)
{
    bool waited = r->waiting;
    r->waiting = !waited && byte == START;
    if (r->waiting)
        return false;
    if (waited && byte != START) {
        open_message(r, byte);
        return false;
    }
    return take_literal(r, body, byte);
}

static size_t run_outside(const uint8_t *bytes, size_t length)
{
    size_t n = 0;
    while (n < length && bytes[n] != START)
        n++;
    return n;
}

/* All but the last of a message's data: that one moves the phase on. */
static size_t run_of_data(struct receiver *r, uint8_t *body, const uint8_t *bytes, size_t length)
{
    size_t n = 0, have = r->have, most = (size_t)r->length - have - 1;
    uint8_t sum = r->sum;
    if (most > length)
        most = length;
    for (; n < most && bytes[n] != START; n++) {
        if (have + n < MOST_DATA)
            body[have + n] = bytes[n];
        sum = (uint8_t)(sum + bytes[n]);
    }
    r->have = (uint8_t)(have + n);
    r->sum = sum;
    return n;
}

/* How many bytes were run over that only stand in a row: data, or noise outside a message. None of them ends anything. */
static size_t take_run(struct receiver *r, uint8_t *body, const uint8_t *bytes, size_t length)
{
    if (r->waiting)
        return 0;
    if (r->phase == IDLE)
        return run_outside(bytes, length);
    return r->phase == DATA_NEXT ? run_of_data(r, body, bytes, length) : 0;
}

#endif
