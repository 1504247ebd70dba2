/* Both ends of the line against each other: commands that read, write and describe. */
#include "gate.h"

static const char block_of_60[] =
    "3C 2B 00"
    " 2B 2B 2B 2B 2B 2B 2B 2B 2B 2B 2B 2B 2B 2B 2B 2B 2B 2B 2B 2B 2B 2B 2B 2B 2B 2B 2B 2B 2B 2B"
    " 2B 2B 2B 2B 2B 2B 2B 2B 2B 2B 2B 2B 2B 2B 2B 2B 2B 2B 2B 2B 2B 2B 2B 2B 2B 2B 2B 2B 2B 2B";

void test_both_ends(void)
{
    reset();
    EXPECT(status_of(LOG_GATE_WRITE_BYTES, block_of_60) == LOG_GATE_DONE);
    struct reply reply = ask(LOG_GATE_READ_BYTES, "40 29 00", 64);
    EXPECT(reply.status == LOG_GATE_DONE && reply.length == 64);
    EXPECT(reply.data[1] == 0x00 && reply.data[2] == 0x2B && reply.data[61] == 0x2B && reply.data[62] == 0x00);
    EXPECT(status_of(LOG_GATE_WRITE_BYTES_MASKED, "01 10 00 F0 3C") == LOG_GATE_DONE && gate.memory[16] == 0x30);
    EXPECT(status_of(LOG_GATE_WRITE_2_MASKED, "12 00 34 12 FF 0F") == LOG_GATE_DONE);
    EXPECT(gate.memory[18] == 0x34 && gate.memory[19] == 0x02);
    EXPECT(status_of(LOG_GATE_WRITE_4, "14 00 04 03 02 01") == LOG_GATE_DONE && gate.memory[23] == 0x01);
    reply = ask(LOG_GATE_READ_4_EX, "14 00 00 00", 4);
    EXPECT(reply.length == 4 && memcmp(reply.data, gate.memory + 20, 4) == 0);
    reply = ask(LOG_GATE_DESCRIBE, "", 35);
    EXPECT(reply.length == 35 && memcmp(reply.data + 10, "LOG GATE", 9) == 0);
}
