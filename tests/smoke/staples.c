/* The document's staples over the wire. */
#include "gate.h"

static const struct {
    unsigned address; /* of the byte that the case names */
    uint8_t before, after;
    const char *wire, *answer;
} staples[] = {
    {16, 0x00, 0x00, "2B C8 38", "2B 00 03 00 01 01 00 40 BB"},
    {16, 0x7F, 0x7F, "2B D0 10 00 20", "2B 00 7F 81"},
    {16, 0x2B, 0x2B, "2B D0 10 00 20", "2B 00 2B 2B D5"},
    {43, 0x7F, 0x7F, "2B D0 2B 2B 00 05", "2B 00 7F 81"},
    {16, 0x5A, 0x72, "2B E5 10 00 F0 3C DF", "2B 00 00"},
    {16, 0x7F, 0x7F, "2B D0 10 00 21", "2B 82 7E"},
    {16, 0x7F, 0x7F, "2B 01 03 41 10 00 AB", "2B 84 7C"},
    {16383, 0x7F, 0x7F, "2B D0 FF 3F F2", "2B 00 7F 81"},
    {16383, 0x7F, 0x7F, "2B D0 00 40 F0", "2B 89 77"},
    {8191, 0x00, 0x05, "2B E3 FF 1F 05 00 FA", "2B 00 00"},
    {8192, 0x00, 0x00, "2B E3 00 20 05 00 F8", "2B 89 77"},
    {16, 0x00, 0x00, "2B 2B 2B C8 38", "2B 00 03 00 01 01 00 40 BB"},
    {16, 0x00, 0x00, "2B 2B C8 38", ""},
    {16, 0x00, 0x00, "2B D0 10 2B C8 38", "2B 00 03 00 01 01 00 40 BB"},
    {16, 0x00, 0x00, "2B 7F 00 81", "2B 81 7F"},
    {16, 0x00, 0x00, "2B C1 3F", "2B 88 78"},
};

static void test_cases(void)
{
    for (size_t i = 0; i < sizeof staples / sizeof staples[0]; i++) {
        reset();
        gate.memory[staples[i].address] = staples[i].before;
        expect_answer(staples[i].wire, staples[i].answer);
        EXPECT(gate.memory[staples[i].address] == staples[i].after);
    }
}

/* Staple 13: rising, size 2, threshold 0x7000, from 0x6000 to 0x8000. */
static void test_sign(const char *setup, const char *status)
{
    reset();
    gate.memory[17] = 0x60;
    expect_answer(setup, "2B 00 00");
    tick();
    gate.memory[17] = 0x80;
    tick();
    expect_answer("2B C3 3D", status);
    EXPECT(gate.memory[12289] == 0x60 && gate.memory[12291] == 0x80);
}

/* Staple 14: a length byte of 0x40 is accepted, 0x41 is not. */
static void test_longest(void)
{
    char data[3 * 66] = "3D 10 00";
    reset();
    for (unsigned i = 0; i < 61; i++)
        strcat(data, " 11");
    EXPECT(status_of(LOG_GATE_WRITE_BYTES, data) == LOG_GATE_DONE && gate.memory[76] == 0x11 && gate.memory[77] == 0);
    data[1] = 'E';
    strcat(data, " 11");
    EXPECT(status_of(LOG_GATE_WRITE_BYTES, data) == LOG_GATE_MESSAGE_TOO_LONG && gate.memory[77] == 0);
}

void test_staples(void)
{
    test_cases();
    test_sign("2B 09 13 01 04 00 00 00 00 00 10 00 02 00 00 70 00 00 01 02 10 00 4A", "2B 02 FE");
    test_sign("2B 09 13 01 04 00 00 00 00 00 10 00 02 01 00 70 00 00 01 02 10 00 49", "2B 01 FF");
    test_longest();
}
