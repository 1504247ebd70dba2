/* Refusals of a byte and of a tick: each number with all higher ones also due, and nothing lent is touched. */
#include "states.h"

static log_gate_result byte_refused(size_t state, size_t memory, size_t room)
{
    log_gate_taken taken = log_gate_byte(gate.state, state, 0x2B, gate.memory, memory, gate.answer, room);
    EXPECT(taken.length == 0);
    return taken.refusal;
}

log_gate_result byte_over(size_t state, bool right)
{
    return byte_refused(state, LOG_GATE_MEMORY - !right, LOG_GATE_ANSWER_ROOM - !right);
}

log_gate_result tick_over(size_t state, bool right)
{
    return log_gate_tick(gate.state, state, gate.memory, LOG_GATE_MEMORY - !right);
}

void test_byte_and_tick(void)
{
    size_t sound = LOG_GATE_STATE, whole = LOG_GATE_MEMORY, room = LOG_GATE_ANSWER_ROOM;
    reset();
    memset(gate.answer, UNWRITTEN, sizeof gate.answer);
    before = gate;
    EXPECT(byte_refused(sound - 1, whole - 1, room - 1) == LOG_GATE_STATE_REFUSED);
    EXPECT(byte_refused(sound, whole - 1, room - 1) == LOG_GATE_MEMORY_REFUSED);
    EXPECT(byte_refused(sound, 0, room) == LOG_GATE_MEMORY_REFUSED);
    EXPECT(byte_refused(sound, whole, room - 1) == LOG_GATE_ROOM_REFUSED);
    EXPECT(byte_refused(sound, whole, 0) == LOG_GATE_ROOM_REFUSED);
    EXPECT(log_gate_tick(gate.state, sound - 1, gate.memory, whole - 1) == LOG_GATE_STATE_REFUSED);
    EXPECT(log_gate_tick(gate.state, sound, gate.memory, whole - 1) == LOG_GATE_MEMORY_REFUSED);
    EXPECT(untouched());
    EXPECT(byte_refused(sound, whole, room) == LOG_GATE_TAKEN && !untouched());
}
