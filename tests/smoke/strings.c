/* The length of a string, by either command. */
#include "gate.h"

/* What 0xD4 and 0xE6 answer, or -1 with 0x86. */
static int length_at(unsigned address)
{
    char data[16];
    sprintf(data, "%02X %02X", address & 0xFF, address >> 8);
    struct reply reply = ask(LOG_GATE_STRING_LENGTH, data, 2);
    strcat(data, " 00 00");
    struct reply same = ask(LOG_GATE_STRING_LENGTH_EX, data, 2);
    EXPECT(same.status == reply.status && same.length == reply.length && memcmp(same.data, reply.data, reply.length) == 0);
    EXPECT(reply.status == (reply.length == 2 ? LOG_GATE_DONE : LOG_GATE_SIZE_WRONG));
    return reply.length == 2 ? reply.data[0] + 256 * reply.data[1] : -1;
}

void test_strings(void)
{
    reset();
    EXPECT(length_at(16) == 0 && length_at(16383) == 0);
    strcpy((char *)gate.memory + 8188, "coil one"); /* across the end of an area */
    EXPECT(length_at(8188) == 8 && length_at(8195) == 1 && length_at(8196) == 0 && length_at(8187) == 0);
    memset(gate.memory + 43, 0x2B, 0x2B);
    expect_answer("2B D4 2B 2B 00 01", "2B 00 2B 2B 00 D5");
    memset(gate.memory + 16380, 0x41, 4);
    EXPECT(length_at(16379) == 0 && length_at(16380) == -1 && length_at(16383) == -1);
    memset(gate.memory, 0x41, sizeof gate.memory);
    EXPECT(length_at(0) == -1);
    gate.memory[16383] = 0;
    EXPECT(length_at(0) == 16383 && length_at(1) == 16382 && length_at(16382) == 1 && length_at(16383) == 0);
}
