#include "traffic.h"
#include "../../include/log_gate.h"
#include "../served.h"
#include "random.h"

static void add(struct message *m, uint32_t number, unsigned width)
{
    for (unsigned i = 0; i < width; i++)
        m->data[m->length++] = (uint8_t)(number >> (8 * i));
}

/* Often in a few bytes that many messages touch, now and then at the edge of an area or anywhere. */
static uint32_t random_address(void)
{
    static const uint32_t edges[] = {8192, 12288, 16384};
    if (one_in(8))
        return edges[below(3)] - below(9);
    return one_in(8) ? random_number() & 0xFFFF : below(48);
}

/* Often one at which comparisons turn. */
static uint8_t random_value(void)
{
    static const uint8_t turns[] = {0x00, 0x01, 0x7F, 0x80, 0xFF};
    return one_in(3) ? random_byte() : turns[below(sizeof turns)];
}

static void add_values(struct message *m, unsigned count)
{
    for (unsigned i = 0; i < count; i++)
        add(m, random_value(), 1);
}

static void add_block(struct message *m, unsigned width, unsigned parts)
{
    uint8_t size = (uint8_t)(one_in(6) ? below(70) : 1 + below(8));
    add(m, size, 1);
    add(m, random_address(), width);
    add_values(m, parts * size);
}

static void add_variables(struct message *m, unsigned width)
{
    unsigned count = one_in(8) ? below(10) : 1 + below(8);
    add(m, count, 1);
    for (unsigned i = 0; i < count; i++) {
        add(m, one_in(16) ? below(256) : 1 + below(6), 1);
        add(m, random_address(), width);
    }
}

static void add_plan(struct message *m, unsigned width)
{
    static const uint8_t sizes[] = {1, 2, 4};
    add(m, one_in(16) ? below(256) : below(3), 1);
    add(m, one_in(8) ? below(5000) : below(6), 2);
    add(m, one_in(8) ? random_number() : below(5), 2);
    add(m, one_in(8) ? random_number() : below(3), 2);
    add(m, random_address(), width);
    add(m, one_in(16) ? random_byte() : sizes[below(3)], 1);
    add(m, one_in(16) ? random_byte() : below(2), 1);
    add_values(m, 4);
    add_variables(m, width);
}

/* Mostly short, so that bytes of a longer one before stand behind it; now and then empty, about as long as can be, or longer. */
static void add_command(struct message *m)
{
    m->length = one_in(8) ? 0 : one_in(4) ? 62 + below(4) : 1 + below(8);
    random_fill(m->data, m->length);
}

/* Mostly an index of 2 bytes: one of the first, up to two beyond the last that there can be, now and then any. */
static void add_index(struct message *m)
{
    uint32_t index = one_in(8) ? random_number() : below(one_in(2) ? 4 : LOG_GATE_MOST_TABLES + 2);
    add(m, index, one_in(8) ? below(4) : 2);
}

void fill_standard(struct message *m)
{
    switch (m->command) {
    case LOG_GATE_READ_BYTES: add_block(m, 2, 0); break;
    case LOG_GATE_READ_BYTES_EX: add_block(m, 4, 0); break;
    case LOG_GATE_WRITE_BYTES: add_block(m, 2, 1); break;
    case LOG_GATE_WRITE_BYTES_EX: add_block(m, 4, 1); break;
    case LOG_GATE_WRITE_BYTES_MASKED: add_block(m, 2, 2); break;
    case LOG_GATE_WRITE_BYTES_MASKED_EX: add_block(m, 4, 2); break;
    case LOG_GATE_SET_UP_SCOPE: add_variables(m, 2); break;
    case LOG_GATE_SET_UP_SCOPE_EX: add_variables(m, 4); break;
    case LOG_GATE_SET_UP_RECORDER: add_plan(m, 2); break;
    case LOG_GATE_SET_UP_RECORDER_EX: add_plan(m, 4); break;
    case LOG_GATE_SEND_COMMAND: add_command(m); break;
    case LOG_GATE_QUERY_TABLE: add_index(m); break;
    default:
        m->length = below(80);
        random_fill(m->data, m->length);
    }
}

static void fill_fast(struct message *m)
{
    unsigned length = (m->command >> 4 & 3) * 2;
    int wide = length == 4 && (m->command <= LOG_GATE_READ_4_EX || m->command == LOG_GATE_STRING_LENGTH_EX);
    if (length == 0)
        return;
    uint32_t address = random_address();
    if (wide && one_in(8))
        address |= random_number() << 16; /* it only looks as if it were in the memory */
    add(m, address, wide ? 4 : 2);
    add_values(m, length - (unsigned)m->length);
}

struct message random_message(void)
{
    struct message m = {.length = 0};
    m.command = one_in(16) ? random_byte() : served[below(sizeof served)];
    if (m.command == 0x2B)
        m.command = LOG_GATE_DESCRIBE_BRIEFLY;
    if (m.command < 0xC0)
        fill_standard(&m);
    else
        fill_fast(&m);
    if (m.command < 0xC0 && one_in(16) && m.length > 0)
        m.length -= 1 + below(m.length > 3 ? 3 : 1);
    return m;
}

static uint8_t wire[LOG_GATE_COMMAND_ROOM];
static size_t wire_at, wire_end;

uint8_t next_wire_byte(void)
{
    if (wire_at == wire_end) {
        struct message m = random_message();
        wire_at = 0;
        wire_end = log_gate_write_command(m.command, m.data, m.length, wire, sizeof wire).length;
    }
    uint8_t byte = wire[wire_at++];
    if (!one_in(200))
        return byte;
    return one_in(2) ? 0x2B : random_byte();
}
