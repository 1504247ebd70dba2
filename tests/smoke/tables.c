/* Tables of names: registered, asked for, and what stands of them in the state. */
#include "states.h"
#include "tables.h"

void put_number(uint8_t *bytes, unsigned number)
{
    bytes[0] = (uint8_t)number;
    bytes[1] = (uint8_t)(number >> 8);
}

void put_entry(unsigned at, unsigned type, unsigned info)
{
    memset(gate.memory + at, 0xFF, 8);
    put_number(gate.memory + at + 2, type);
    put_number(gate.memory + at + 6, info);
}

log_gate_result register_list(const char *list)
{
    uint8_t bytes[64];
    size_t length = bytes_of(list, bytes);
    return log_gate_register(gate.state, sizeof gate.state, gate.memory, sizeof gate.memory, bytes, length);
}

static void test_asked(void)
{
    reset();
    expect_answer("2B 11 02 00 00 ED", "2B 00 00 00 00 00 00 00 00");
    EXPECT(register_list("00 20 10 00 2B 20 08 00") == LOG_GATE_TAKEN);
    expect_answer("2B 11 02 00 00 ED", "2B 00 02 00 10 00 00 20 CE");
    expect_answer("2B 11 02 01 00 EC", "2B 00 02 00 08 00 2B 2B 20 AB");
    expect_answer("2B 11 02 02 00 EB", "2B 00 00 00 00 00 00 00 00");
    expect_answer("2B 11 02 00 01 EC", "2B 00 00 00 00 00 00 00 00");
    put_entry(8192, 0xFFFF, 0); /* bad from now on, and told all the same */
    expect_answer("2B 11 02 00 00 ED", "2B 00 02 00 10 00 00 20 CE");
    EXPECT(register_list("00 20 10 00") == LOG_GATE_LIST_REFUSED);
    expect_answer("2B 11 02 01 00 EC", "2B 00 02 00 08 00 2B 2B 20 AB");
    EXPECT(register_list("") == LOG_GATE_TAKEN);
    expect_answer("2B 11 02 00 00 ED", "2B 00 00 00 00 00 00 00 00");
}


/* What a reset with tables leaves: zeros, the count, and the list with zeros behind it; a plain reset leaves zeros. */
static void test_layout(void)
{
    uint8_t due[LOG_GATE_STATE] = {0};
    reset();
    EXPECT(status_of(LOG_GATE_SET_UP_SCOPE, "01 01 10 00") == LOG_GATE_DONE);
    EXPECT(status_of(LOG_GATE_SET_UP_RECORDER, "00 01 00 00 00 00 00 00 00 00 00 00 00 00 00 01 01 00 00") == LOG_GATE_DONE);
    EXPECT(status_of(LOG_GATE_SEND_COMMAND, "01") == LOG_GATE_DONE && give(0x2B).length == 0 && give(0xC8).length == 0);
    memset(gate.state + LIST, 0xA5, LOG_GATE_STATE - LIST);
    EXPECT(register_list("00 20 10 00 F8 2F 08 00") == LOG_GATE_TAKEN);
    due[TABLES] = 2;
    bytes_of("00 20 10 00 F8 2F 08 00", due + LIST);
    EXPECT(memcmp(gate.state, due, sizeof due) == 0);
    EXPECT(give(0x38).length == 0 && memcmp(gate.state, due, sizeof due) == 0);
    EXPECT(status_of(LOG_GATE_READ_SCOPE, "") == LOG_GATE_NOT_SET_UP);
    EXPECT(status_of(LOG_GATE_RECORDER_STATUS, "") == LOG_GATE_NOT_SET_UP && result_now() == LOG_GATE_NO_COMMAND);
    EXPECT(memcmp(gate.state + SCOPE, due + SCOPE, sizeof due - SCOPE) == 0);
    memset(due, 0, sizeof due);
    EXPECT(log_gate_reset(gate.state, sizeof gate.state) == LOG_GATE_TAKEN && memcmp(gate.state, due, sizeof due) == 0);
}

static log_gate_result register_refused(size_t state, size_t memory, size_t length)
{
    return log_gate_register(gate.state, state, gate.memory, memory, (const uint8_t *)"\x00\x20\x08\x00", length);
}

log_gate_result register_over(size_t state, bool right)
{
    return register_refused(state, LOG_GATE_MEMORY - !right, LOG_GATE_TABLE - !right);
}

/* The block may hold anything before, out of every bound too. */
static void test_refusals(void)
{
    size_t sound = LOG_GATE_STATE, whole = LOG_GATE_MEMORY;
    reset();
    memset(gate.state, 0xFF, sizeof gate.state);
    before = gate;
    EXPECT(register_refused(sound - 1, whole - 1, 3) == LOG_GATE_STATE_REFUSED);
    EXPECT(register_refused(sound - 1, whole, 4) == LOG_GATE_STATE_REFUSED);
    EXPECT(register_refused(sound, whole - 1, 3) == LOG_GATE_MEMORY_REFUSED);
    EXPECT(register_refused(sound, whole + 1, 4) == LOG_GATE_MEMORY_REFUSED);
    EXPECT(register_refused(sound, 0, 4) == LOG_GATE_MEMORY_REFUSED);
    EXPECT(register_refused(sound, whole, 3) == LOG_GATE_LIST_REFUSED);
    EXPECT(untouched());
    EXPECT(register_refused(sound, whole, 4) == LOG_GATE_TAKEN && !untouched());
    EXPECT(log_gate_check(gate.state, sound) == LOG_GATE_TAKEN);
}

/* The list may be anything: it is told as it stands, and not looked at again. */
static void test_bounds(void)
{
    reset();
    memset(gate.state + LIST, 0xFF, LOG_GATE_STATE - LIST);
    expect_answer("2B 11 02 00 00 ED", "2B 00 00 00 00 00 00 00 00");
    gate.state[TABLES] = LOG_GATE_MOST_TABLES;
    EXPECT(log_gate_check(gate.state, sizeof gate.state) == LOG_GATE_TAKEN);
    expect_answer("2B 11 02 0F 00 DE", "2B 00 02 00 FF FF FF FF 02");
    expect_answer("2B 11 02 10 00 DD", "2B 00 00 00 00 00 00 00 00");
    tick();
}

void test_tables(void)
{
    test_asked();
    test_layout();
    test_refusals();
    test_bounds();
}
