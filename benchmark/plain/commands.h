/* The commands: one table of what each does, and what it refuses, in the document's order. */
#ifndef PLAIN_COMMANDS_H
#define PLAIN_COMMANDS_H

#include "application.h"
#include "recorder.h"
#include "tables.h"

enum operation {
    NOT_SERVED,
    DESCRIBE,
    READ,
    WRITE,
    WRITE_MASKED,
    SET_UP_SCOPE,
    READ_SCOPE,
    SET_UP_RECORDER,
    START_RECORDER,
    STOP_RECORDER,
    RECORDER_STATUS,
    QUERY_BUFFER,
    SEND_COMMAND,
    COMMAND_RESULT,
    QUERY_TABLE,
    STRING_LENGTH
};

struct command {
    uint8_t operation;
    uint8_t width; /* of an address */
    uint8_t size;  /* of what is read or written; 0 where the data begin with it */
};

static const struct command commands[256] = {
    [LOG_GATE_READ_BYTES] = {READ, 2, 0},
    [LOG_GATE_WRITE_BYTES] = {WRITE, 2, 0},
    [LOG_GATE_WRITE_BYTES_MASKED] = {WRITE_MASKED, 2, 0},
    [LOG_GATE_READ_BYTES_EX] = {READ, 4, 0},
    [LOG_GATE_WRITE_BYTES_EX] = {WRITE, 4, 0},
    [LOG_GATE_WRITE_BYTES_MASKED_EX] = {WRITE_MASKED, 4, 0},
    [LOG_GATE_SET_UP_SCOPE] = {SET_UP_SCOPE, 2, 0},
    [LOG_GATE_SET_UP_RECORDER] = {SET_UP_RECORDER, 2, 0},
    [LOG_GATE_SET_UP_SCOPE_EX] = {SET_UP_SCOPE, 4, 0},
    [LOG_GATE_SET_UP_RECORDER_EX] = {SET_UP_RECORDER, 4, 0},
    [LOG_GATE_SEND_COMMAND] = {SEND_COMMAND, 0, 0},
    [LOG_GATE_QUERY_TABLE] = {QUERY_TABLE, 0, 0},
    [LOG_GATE_DESCRIBE] = {DESCRIBE, 0, 35},
    [LOG_GATE_START_RECORDER] = {START_RECORDER, 0, 0},
    [LOG_GATE_STOP_RECORDER] = {STOP_RECORDER, 0, 0},
    [LOG_GATE_RECORDER_STATUS] = {RECORDER_STATUS, 0, 0},
    [LOG_GATE_QUERY_BUFFER] = {QUERY_BUFFER, 2, 0},
    [LOG_GATE_READ_SCOPE] = {READ_SCOPE, 0, 0},
    [LOG_GATE_COMMAND_RESULT] = {COMMAND_RESULT, 0, 0},
    [LOG_GATE_DESCRIBE_BRIEFLY] = {DESCRIBE, 0, 6},
    [LOG_GATE_QUERY_BUFFER_EX] = {QUERY_BUFFER, 4, 0},
    [LOG_GATE_READ_1] = {READ, 2, 1},
    [LOG_GATE_READ_2] = {READ, 2, 2},
    [LOG_GATE_READ_4] = {READ, 2, 4},
    [LOG_GATE_STRING_LENGTH] = {STRING_LENGTH, 2, 0},
    [LOG_GATE_READ_1_EX] = {READ, 4, 1},
    [LOG_GATE_READ_2_EX] = {READ, 4, 2},
    [LOG_GATE_READ_4_EX] = {READ, 4, 4},
    [LOG_GATE_WRITE_1] = {WRITE, 2, 1},
    [LOG_GATE_WRITE_2] = {WRITE, 2, 2},
    [LOG_GATE_WRITE_1_MASKED] = {WRITE_MASKED, 2, 1},
    [LOG_GATE_STRING_LENGTH_EX] = {STRING_LENGTH, 4, 0},
    [LOG_GATE_WRITE_4] = {WRITE, 2, 4},
    [LOG_GATE_WRITE_2_MASKED] = {WRITE_MASKED, 2, 2},
};

static const uint8_t description[35] = {0x03, 0x00, 0x01, 0x01, 0x00, 0x40, 0x00, 0x10, 0x01,
                                        0x40, 'L',  'O',  'G',  ' ',  'G',  'A',  'T',  'E'};

/* A status and its data, which stand in the memory, in the description, or in `gathered`. */
struct answer {
    uint8_t status;
    uint8_t length;
    const uint8_t *data;
    uint8_t gathered[MOST_DATA];
};

static void say(struct answer *a, const uint8_t *data, unsigned length)
{
    a->status = LOG_GATE_DONE;
    a->data = data;
    a->length = (uint8_t)length;
}

/* Where a command goes, and what stands behind the address. */
struct range {
    uint32_t address;
    unsigned size;
    const uint8_t *behind;
};

/* `parts` is how many parts of the range's size stand behind the address; a fast command's length is always right. */
static uint8_t find_range(const struct command *c, const uint8_t *body, unsigned length, unsigned parts, struct range *r)
{
    bool block = c->size == 0;
    if (block && (length < 1u + c->width || length != 1u + c->width + parts * body[0]))
        return LOG_GATE_LAYOUT_WRONG;
    r->size = block ? *body++ : c->size;
    r->address = number_at(body, c->width);
    r->behind = body + c->width;
    return r->size == 0 ? LOG_GATE_SIZE_WRONG : LOG_GATE_DONE;
}

static void read_memory(const struct command *c, const uint8_t *body, unsigned length, const uint8_t *memory, struct answer *a)
{
    struct range r;
    a->status = find_range(c, body, length, 0, &r);
    if (a->status != LOG_GATE_DONE)
        return;
    if (r.size > MOST_DATA)
        a->status = LOG_GATE_ANSWER_TOO_LONG;
    else if (!ends_by(r.address, r.size, MEMORY_END))
        a->status = LOG_GATE_RANGE_WRONG;
    else
        say(a, memory + r.address, r.size);
}

static uint8_t write_memory(const struct command *c, const uint8_t *body, unsigned length, uint8_t *memory)
{
    struct range r;
    bool masked = c->operation == WRITE_MASKED;
    uint8_t status = find_range(c, body, length, masked ? 2 : 1, &r);
    if (status != LOG_GATE_DONE)
        return status;
    if (!ends_by(r.address, r.size, VARIABLES_END))
        return LOG_GATE_RANGE_WRONG;
    if (masked)
        store_masked(memory + r.address, r.behind, r.behind + r.size, r.size);
    else
        memcpy(memory + r.address, r.behind, r.size);
    return LOG_GATE_DONE;
}

static uint8_t set_up_scope(struct variables *scope, const uint8_t *body, unsigned length, unsigned width)
{
    struct variables v = {0};
    uint8_t status = read_variables(body, length, width, &v);
    if (status != LOG_GATE_DONE)
        return status;
    if (!all_end_by(&v, MEMORY_END))
        return LOG_GATE_RANGE_WRONG;
    *scope = v;
    return LOG_GATE_DONE;
}

static void read_scope(const struct variables *scope, const uint8_t *memory, struct answer *a)
{
    if (scope->count == 0) {
        a->status = LOG_GATE_NOT_SET_UP;
    } else if (set_size(scope) > MOST_DATA) {
        a->status = LOG_GATE_ANSWER_TOO_LONG;
    } else {
        copy_set(scope, memory, a->gathered);
        say(a, a->gathered, set_size(scope));
    }
}

static void query_buffer(const struct recorder *r, unsigned width, struct answer *a)
{
    a->status = recorder_status(r);
    if (a->status == LOG_GATE_RECORDER_RUNS)
        a->status = LOG_GATE_BUSY;
    if (a->status != LOG_GATE_RECORDER_STOPPED)
        return;
    put_number(a->gathered, width, CALIBRATION_END);
    put_number(a->gathered + width, 2, start_index(&r->run));
    say(a, a->gathered, width + 2);
}

static void say_result(const struct application *application, struct answer *a)
{
    a->gathered[0] = result_byte(application);
    say(a, a->gathered, 1);
}

static void query_table(const struct tables *tables, const uint8_t *body, unsigned length, struct answer *a)
{
    a->status = LOG_GATE_LAYOUT_WRONG;
    if (length != 2)
        return;
    put_table(tables, number_at(body, 2), a->gathered);
    say(a, a->gathered, 6);
}

static void say_string_length(const uint8_t *memory, uint32_t address, struct answer *a)
{
    uint32_t length;
    a->status = measure_string(memory, address, &length);
    if (a->status != LOG_GATE_DONE)
        return;
    put_number(a->gathered, 2, length);
    say(a, a->gathered, 2);
}

static void carry_out_on_recorder(const struct command *c, struct target *t, struct answer *a)
{
    struct recorder *r = &t->recorder;
    switch (c->operation) {
    case SET_UP_RECORDER:
        a->status = set_up_recorder(r, t->body, t->receiver.length, c->width);
        break;
    case START_RECORDER:
        a->status = start_recorder(r);
        break;
    case STOP_RECORDER:
        a->status = stop_recorder(r);
        break;
    case RECORDER_STATUS:
        a->status = recorder_status(r);
        break;
    case QUERY_BUFFER:
        query_buffer(r, c->width, a);
        break;
    default:
        a->status = LOG_GATE_NOT_SERVED;
    }
}

static void carry_out(struct target *t, uint8_t *memory, struct answer *a)
{
    const struct command *c = &commands[t->receiver.command];
    const uint8_t *body = t->body;
    unsigned length = t->receiver.length;
    switch (c->operation) {
    case DESCRIBE:
        say(a, description, c->size);
        break;
    case READ:
        read_memory(c, body, length, memory, a);
        break;
    case WRITE:
    case WRITE_MASKED:
        a->status = write_memory(c, body, length, memory);
        break;
    case SET_UP_SCOPE:
        a->status = set_up_scope(&t->scope, body, length, c->width);
        break;
    case READ_SCOPE:
        read_scope(&t->scope, memory, a);
        break;
    case SEND_COMMAND:
        a->status = send_command(&t->application, body, length);
        break;
    case COMMAND_RESULT:
        say_result(&t->application, a);
        break;
    case QUERY_TABLE:
        query_table(&t->tables, body, length, a);
        break;
    case STRING_LENGTH:
        say_string_length(memory, number_at(body, c->width), a);
        break;
    default:
        carry_out_on_recorder(c, t, a);
    }
}

/* The answer to the message that the receiver has whole: how many bytes of it were written. */
static size_t answer_message(struct target *t, uint8_t *memory, uint8_t *out)
{
    struct answer a;
    a.length = 0;
    if (t->receiver.sum != 0)
        a.status = LOG_GATE_SUM_WRONG;
    else if (t->receiver.length > MOST_DATA)
        a.status = LOG_GATE_MESSAGE_TOO_LONG;
    else
        carry_out(t, memory, &a);
    struct writer w = begin_writing(out, a.status);
    if (a.length > 0)
        put_all(&w, a.data, a.length);
    return finish_writing(&w);
}

#endif
