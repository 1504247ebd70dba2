/* The scope and the recorder: set up, ticked, triggered and read. */
#include "gate.h"

static void test_instruments(void)
{
    reset();
    for (unsigned i = 0; i < 64; i++)
        gate.memory[i] = (uint8_t)i;
    EXPECT(status_of(LOG_GATE_SET_UP_SCOPE, "02 02 10 00 01 2B 00") == LOG_GATE_DONE);
    struct reply reply = ask(LOG_GATE_READ_SCOPE, "", 3);
    EXPECT(reply.length == 3 && reply.data[0] == 16 && reply.data[1] == 17 && reply.data[2] == 43);
    EXPECT(status_of(LOG_GATE_SET_UP_RECORDER_EX, "00 02 00 00 00 01 00 00 00 00 00 00 00 00 00 00 00 01 01 10 00 00 00") ==
           LOG_GATE_DONE);
    EXPECT(status_of(LOG_GATE_START_RECORDER, "") == LOG_GATE_RECORDER_RUNS);
    EXPECT(status_of(LOG_GATE_RECORDER_STATUS, "") == LOG_GATE_RECORDER_RUNS);
    for (uint8_t i = 0; i < 6; i++) { /* sets at ticks 1, 3 and 5 */
        gate.memory[16] = (uint8_t)(0x50 + i);
        tick();
    }
    EXPECT(gate.memory[12288] == 0x54 && gate.memory[12289] == 0x52 && gate.memory[12290] == 0);
    EXPECT(status_of(LOG_GATE_STOP_RECORDER, "") == LOG_GATE_DONE);
    EXPECT(status_of(LOG_GATE_STOP_RECORDER, "") == LOG_GATE_RECORDER_STOPPED);
    reply = ask(LOG_GATE_QUERY_BUFFER_EX, "", 6);
    EXPECT(reply.length == 6 && memcmp(reply.data, "\0\x30\0\0\x01", 6) == 0);
    EXPECT(status_of(LOG_GATE_START_RECORDER, "") == LOG_GATE_DONE);
    EXPECT(status_of(LOG_GATE_RECORDER_STATUS, "") == LOG_GATE_RECORDER_RUNS);
}

/* A trigger of one byte, threshold 0x80: mode, sign, the values at two sets, and the set it stops with, 0 for none. */
static void test_edges(void)
{
    static const struct {
        uint8_t mode, sign, value[2], stops_with;
    } edges[] = {{1, 0, {0x7F, 0x80}, 2}, {1, 0, {0x80, 0x81}, 1}, {1, 0, {0x7E, 0x7F}, 0}, {1, 0, {0x81, 0x7F}, 1},
                 {2, 0, {0x81, 0x80}, 2}, {2, 0, {0x80, 0x7F}, 1}, {2, 0, {0x82, 0x81}, 0}, {2, 0, {0x7F, 0x81}, 1},
                 {2, 1, {0x7F, 0x80}, 2}, {2, 1, {0x81, 0x80}, 2}, {2, 1, {0x80, 0x7F}, 1}, {1, 1, {0x7F, 0x80}, 1},
                 {1, 1, {0x80, 0x7F}, 1}, {0, 0, {0x7F, 0x80}, 0}, {0, 0, {0x81, 0x80}, 0}};
    for (size_t i = 0; i < sizeof edges / sizeof edges[0]; i++) {
        char data[64];
        uint8_t stopped_with = 0;
        reset();
        sprintf(data, "%02X 02 00 00 00 00 00 10 00 01 %02X 80 00 00 00 01 01 10 00", edges[i].mode, edges[i].sign);
        EXPECT(status_of(LOG_GATE_SET_UP_RECORDER, data) == LOG_GATE_DONE);
        for (uint8_t set = 1; set <= 2; set++) {
            gate.memory[16] = edges[i].value[set - 1];
            tick();
            if (stopped_with == 0 && status_of(LOG_GATE_RECORDER_STATUS, "") == LOG_GATE_RECORDER_STOPPED)
                stopped_with = set;
        }
        EXPECT(stopped_with == edges[i].stops_with);
    }
}

/* Post-trigger 2, divider 1: it stops 4 ticks after the trigger; the start index is the place that would be written next. */
static void test_post_trigger(void)
{
    reset();
    EXPECT(status_of(LOG_GATE_SET_UP_RECORDER, "01 03 00 02 00 01 00 10 00 01 00 80 00 00 00 01 01 10 00") == LOG_GATE_DONE);
    for (uint8_t i = 0; i < 7; i++) { /* sets at ticks 1, 3 (the trigger), 5 and 7 */
        EXPECT(status_of(LOG_GATE_RECORDER_STATUS, "") == LOG_GATE_RECORDER_RUNS);
        gate.memory[16] = (uint8_t)(0x7E + i);
        tick();
    }
    EXPECT(status_of(LOG_GATE_RECORDER_STATUS, "") == LOG_GATE_RECORDER_STOPPED);
    tick();
    EXPECT(gate.memory[12288] == 0x84 && gate.memory[12289] == 0x80 && gate.memory[12290] == 0x82 && gate.memory[12291] == 0);
    struct reply reply = ask(LOG_GATE_QUERY_BUFFER, "", 4);
    EXPECT(reply.length == 4 && memcmp(reply.data, "\0\x30\x01\0", 4) == 0);
}

void test_recorder(void)
{
    test_instruments();
    test_edges();
    test_post_trigger();
}
