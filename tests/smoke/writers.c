/* The answer writer and the command writer: what they refuse, and how much they write. */
#include "gate.h"

static log_gate_result answer_refused(uint8_t status, size_t length, size_t room)
{
    uint8_t data[65] = {0}, out[LOG_GATE_ANSWER_ROOM];
    memset(out, UNWRITTEN, sizeof out);
    log_gate_taken written = log_gate_write_answer(status, data, length, out, room);
    if (written.refusal != LOG_GATE_TAKEN)
        EXPECT(written.length == 0);
    EXPECT(unwritten(out + written.length, sizeof out - written.length));
    return written.refusal;
}

static void test_answer_writer(void)
{
    size_t room = LOG_GATE_ANSWER_ROOM;
    for (unsigned status = 0; status < 256; status++) {
        bool known = status <= 0x02 || (0x81 <= status && status <= 0x89);
        EXPECT(answer_refused((uint8_t)status, 0, room) == (known ? LOG_GATE_TAKEN : LOG_GATE_FORM_REFUSED));
        EXPECT(answer_refused((uint8_t)status, 0, room - 1) == (known ? LOG_GATE_ROOM_REFUSED : LOG_GATE_FORM_REFUSED));
        if (status >= 0x80)
            EXPECT(answer_refused((uint8_t)status, 1, room) == LOG_GATE_FORM_REFUSED);
    }
    EXPECT(answer_refused(LOG_GATE_DONE, 64, room) == LOG_GATE_TAKEN);
    EXPECT(answer_refused(LOG_GATE_DONE, 65, 0) == LOG_GATE_FORM_REFUSED);
    EXPECT(answer_refused(LOG_GATE_RECORDER_RUNS, 64, 0) == LOG_GATE_ROOM_REFUSED);
}

static log_gate_result command_refused(uint8_t command, size_t length, size_t room)
{
    uint8_t data[256], out[LOG_GATE_COMMAND_ROOM + 1];
    memset(data, 0x2B, sizeof data);
    memset(out, UNWRITTEN, sizeof out);
    log_gate_taken written = log_gate_write_command(command, data, length, out, room);
    EXPECT((written.refusal == LOG_GATE_TAKEN) == (written.length > 0) && written.length <= room);
    EXPECT(unwritten(out + written.length, sizeof out - written.length));
    return written.refusal;
}

static void test_command_writer(void)
{
    EXPECT(command_refused(0x2B, 0, 0) == LOG_GATE_FORM_REFUSED);
    EXPECT(command_refused(LOG_GATE_READ_1, 1, 0) == LOG_GATE_FORM_REFUSED);
    EXPECT(command_refused(LOG_GATE_READ_1, 3, 516) == LOG_GATE_FORM_REFUSED);
    EXPECT(command_refused(LOG_GATE_READ_BYTES, 256, 0) == LOG_GATE_FORM_REFUSED);
    EXPECT(command_refused(LOG_GATE_DESCRIBE_BRIEFLY, 0, 0) == LOG_GATE_ROOM_REFUSED);
    EXPECT(command_refused(LOG_GATE_DESCRIBE_BRIEFLY, 0, 2) == LOG_GATE_ROOM_REFUSED);
    EXPECT(command_refused(LOG_GATE_DESCRIBE_BRIEFLY, 0, 3) == LOG_GATE_TAKEN);
    EXPECT(command_refused(LOG_GATE_READ_1, 2, 6) == LOG_GATE_ROOM_REFUSED);
    EXPECT(command_refused(LOG_GATE_READ_1, 2, 7) == LOG_GATE_TAKEN);
    EXPECT(command_refused(LOG_GATE_READ_BYTES, 255, 514) == LOG_GATE_ROOM_REFUSED);
    EXPECT(command_refused(LOG_GATE_READ_BYTES, 255, 515) == LOG_GATE_TAKEN); /* its sum byte is 0x2B too */
}

void test_writers(void)
{
    test_answer_writer();
    test_command_writer();
}
