/* Every status that refuses on the wire, with what stands below it in the order also wrong; and which commands are served. */
#include "../served.h"
#include "gate.h"

static const struct {
    uint8_t command;
    const char *data;
    uint8_t status;
} wrong[] = {
    {0x12, "00 00", LOG_GATE_NOT_SERVED},
    {0xC7, "", LOG_GATE_NOT_SERVED},
    {LOG_GATE_SEND_COMMAND, "", LOG_GATE_LAYOUT_WRONG},
    {LOG_GATE_READ_SCOPE, "", LOG_GATE_NOT_SET_UP},
    {LOG_GATE_QUERY_BUFFER, "", LOG_GATE_NOT_SET_UP},
    {LOG_GATE_QUERY_TABLE, "", LOG_GATE_LAYOUT_WRONG},
    {LOG_GATE_QUERY_TABLE, "00", LOG_GATE_LAYOUT_WRONG},
    {LOG_GATE_QUERY_TABLE, "00 00 00", LOG_GATE_LAYOUT_WRONG},
    {LOG_GATE_READ_BYTES, "41 00", LOG_GATE_LAYOUT_WRONG},
    {LOG_GATE_WRITE_BYTES, "02 00 40 01", LOG_GATE_LAYOUT_WRONG},
    {LOG_GATE_SET_UP_SCOPE, "", LOG_GATE_LAYOUT_WRONG},
    {LOG_GATE_SET_UP_SCOPE, "01 00 00", LOG_GATE_LAYOUT_WRONG},
    {LOG_GATE_SET_UP_RECORDER, "03 00 00 00 00 00 00 00 40 00 00 00 00 00 00 01 00 00 40", LOG_GATE_LAYOUT_WRONG},
    {LOG_GATE_SET_UP_RECORDER, "01 00 00 00 00 00 00 00 40 00 02 00 00 00 00 01 00 00 40", LOG_GATE_LAYOUT_WRONG},
    {LOG_GATE_READ_BYTES, "00 00 40", LOG_GATE_SIZE_WRONG},
    {LOG_GATE_SET_UP_SCOPE, "00", LOG_GATE_SIZE_WRONG},
    {LOG_GATE_SET_UP_SCOPE, "01 00 00 40", LOG_GATE_SIZE_WRONG},
    {LOG_GATE_SET_UP_RECORDER, "00 00 00 00 00 00 00 00 40 00 00 00 00 00 00 01 01 00 40", LOG_GATE_SIZE_WRONG},
    {LOG_GATE_SET_UP_RECORDER, "00 01 10 00 00 00 00 00 00 00 00 00 00 00 00 01 02 00 00", LOG_GATE_SIZE_WRONG},
    {LOG_GATE_SET_UP_RECORDER, "02 01 00 00 00 00 00 00 40 03 00 00 00 00 00 01 01 00 40", LOG_GATE_SIZE_WRONG},
    {LOG_GATE_READ_BYTES, "41 00 40", LOG_GATE_ANSWER_TOO_LONG},
    {LOG_GATE_READ_BYTES, "40 C1 3F", LOG_GATE_RANGE_WRONG},
    {LOG_GATE_WRITE_BYTES, "02 FF 1F 01 02", LOG_GATE_RANGE_WRONG},
    {LOG_GATE_READ_4_EX, "FD FF FF FF", LOG_GATE_RANGE_WRONG},
    {LOG_GATE_SET_UP_SCOPE, "01 02 FF 3F", LOG_GATE_RANGE_WRONG},
    {LOG_GATE_SET_UP_RECORDER, "00 01 00 00 00 00 00 00 00 00 00 00 00 00 00 01 02 FF 2F", LOG_GATE_RANGE_WRONG},
    {LOG_GATE_SET_UP_RECORDER, "01 01 00 00 00 00 00 FD 2F 04 00 00 00 00 00 01 01 00 00", LOG_GATE_RANGE_WRONG},
    {LOG_GATE_STRING_LENGTH, "00 40", LOG_GATE_RANGE_WRONG},
    {LOG_GATE_STRING_LENGTH, "FF FF", LOG_GATE_RANGE_WRONG},
    {LOG_GATE_STRING_LENGTH_EX, "00 40 00 00", LOG_GATE_RANGE_WRONG},
    {LOG_GATE_STRING_LENGTH_EX, "10 00 01 00", LOG_GATE_RANGE_WRONG},
    {LOG_GATE_STRING_LENGTH_EX, "FF FF FF FF", LOG_GATE_RANGE_WRONG},
};

static void test_wrong_messages(void)
{
    for (size_t i = 0; i < sizeof wrong / sizeof wrong[0]; i++) {
        uint8_t fresh[LOG_GATE_STATE];
        reset();
        struct reply reply = ask(wrong[i].command, wrong[i].data, 64);
        expect_row(reply.status == wrong[i].status && reply.length == 0, "%02X %s gives %02X, not %02X", wrong[i].command,
                   wrong[i].data, reply.status, wrong[i].status);
        log_gate_reset(fresh, sizeof fresh);
        EXPECT(memcmp(gate.state + SCOPE, fresh + SCOPE, sizeof fresh - SCOPE) == 0);
        for (size_t a = 0; a < sizeof gate.memory; a++)
            if (gate.memory[a] != 0)
                EXPECT(!"a refused message changes memory");
    }
}

/* A command is served exactly when the header names it. */
static void test_served(void)
{
    static const uint8_t data[6];
    for (unsigned command = 0; command < 256; command++) {
        uint8_t wire[LOG_GATE_COMMAND_ROOM];
        size_t length = command < 0xC0 ? 0 : (command >> 4 & 3) * 2;
        log_gate_taken written = log_gate_write_command((uint8_t)command, data, length, wire, sizeof wire);
        reset();
        for (size_t i = 0; i < written.length; i++)
            give(wire[i]);
        if (command != 0x2B)
            EXPECT((gate.answer[1] != LOG_GATE_NOT_SERVED) == (memchr(served, (int)command, sizeof served) != NULL));
    }
}

/* A recorder that runs is busy, whatever the setup's data; a message above 64 is too long, whatever its command. */
static void test_order(void)
{
    char long_data[3 * 65 + 1] = "";
    for (unsigned i = 0; i < 65; i++)
        strcat(long_data, "00 ");
    long_data[3 * 65 - 1] = '\0';
    reset();
    EXPECT(status_of(LOG_GATE_SET_UP_RECORDER, "00 01 00 00 00 00 00 00 00 00 00 00 00 00 00 01 01 00 00") == LOG_GATE_DONE);
    EXPECT(status_of(LOG_GATE_SET_UP_RECORDER, "07") == LOG_GATE_BUSY);
    EXPECT(status_of(LOG_GATE_SET_UP_RECORDER_EX, "") == LOG_GATE_BUSY);
    EXPECT(status_of(LOG_GATE_QUERY_BUFFER, "") == LOG_GATE_BUSY && status_of(LOG_GATE_QUERY_BUFFER_EX, "") == LOG_GATE_BUSY);
    EXPECT(status_of(0x7F, long_data) == LOG_GATE_MESSAGE_TOO_LONG);
    EXPECT(status_of(LOG_GATE_WRITE_BYTES, long_data) == LOG_GATE_MESSAGE_TOO_LONG);
    expect_answer("2B 7F 00 80", "2B 82 7E");
}

void test_messages(void)
{
    test_wrong_messages();
    test_served();
    test_order();
}
