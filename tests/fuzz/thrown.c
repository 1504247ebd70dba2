#include "thrown.h"

uint8_t live[LOG_GATE_STATE], live_reader[LOG_GATE_READER];
struct lent state, mem, out, block;

size_t some_length(size_t right, size_t more)
{
    if (!one_in(8))
        return right;
    return one_in(2) ? below((uint32_t)right) : right + below((uint32_t)more);
}

/* Any byte of a state, more often one that the last two parts' bounds look at: most of these parts they do not. */
static size_t some_place(size_t size)
{
    if (size != LOG_GATE_STATE || !one_in(4))
        return below((uint32_t)size);
    uint32_t looked_at = below(COMMAND + 1);
    return looked_at == COMMAND ? TABLES : APPLICATION + looked_at;
}

int lend_state(struct lent *l, const uint8_t *sound, size_t size)
{
    uint8_t bytes[LOG_GATE_STATE];
    uint32_t kind = below(8);
    memcpy(bytes, sound, size);
    if (kind == 0)
        random_fill(bytes, size);
    if (kind == 1 || kind == 2)
        bytes[some_place(size)] = one_in(2) ? (uint8_t)below(10) : random_byte();
    lend(l, bytes, size, some_length(size, 40));
    return kind > 2;
}

void lend_memory(void)
{
    if (mem.length == 0 || one_in(5000))
        lend(&mem, mem.bytes, 0, LOG_GATE_MEMORY + 40);
    mem.length = one_in(16) ? some_length(LOG_GATE_MEMORY, 40) : LOG_GATE_MEMORY;
}

void lend_room(size_t length)
{
    lend(&out, out.bytes, 0, length);
}

uint8_t state_refusal(void)
{
    if (state.length < LOG_GATE_STATE)
        return LOG_GATE_STATE_REFUSED;
    return log_gate_check(lent_bytes(&state), state.length);
}

uint8_t tick_refusal(void)
{
    if (state_refusal() != LOG_GATE_TAKEN)
        return LOG_GATE_STATE_REFUSED;
    return mem.length == LOG_GATE_MEMORY ? LOG_GATE_TAKEN : LOG_GATE_MEMORY_REFUSED;
}

uint8_t byte_refusal(void)
{
    uint8_t refusal = tick_refusal();
    if (refusal == LOG_GATE_TAKEN && out.length < LOG_GATE_ANSWER_ROOM)
        return LOG_GATE_ROOM_REFUSED;
    return refusal;
}

void keep_live(int is_live)
{
    digest_bytes(lent_bytes(&state), LOG_GATE_STATE);
    expect(log_gate_check(lent_bytes(&state), state.length) == LOG_GATE_TAKEN, "a taken call leaves a state out of bounds");
    if (is_live)
        memcpy(live, lent_bytes(&state), sizeof live);
}

void keep_memory(size_t from, size_t to)
{
    memcpy(mem.kept + mem.start + from, lent_bytes(&mem) + from, to - from);
    digest_bytes(lent_bytes(&mem) + from, to - from);
}

size_t number_at(const uint8_t *bytes)
{
    return bytes[0] + 256u * bytes[1];
}

void put_number(uint8_t *bytes, size_t number)
{
    bytes[0] = (uint8_t)number;
    bytes[1] = (uint8_t)(number >> 8);
}
