#include "gate.h"

struct gate gate, before;

bool untouched(void)
{
    return memcmp(&gate, &before, sizeof gate) == 0;
}

void reset(void)
{
    memset(&gate, 0, sizeof gate);
    memset(gate.state, 0xEE, sizeof gate.state);
    EXPECT(log_gate_reset(gate.state, sizeof gate.state) == LOG_GATE_TAKEN);
}

log_gate_taken give(uint8_t byte)
{
    return log_gate_byte(gate.state, sizeof gate.state, byte, gate.memory, sizeof gate.memory, gate.answer,
                         sizeof gate.answer);
}

void tick(void)
{
    EXPECT(log_gate_tick(gate.state, sizeof gate.state, gate.memory, sizeof gate.memory) == LOG_GATE_TAKEN);
}

static void append_text(char *text, const uint8_t *bytes, size_t length)
{
    text += strlen(text);
    for (size_t i = 0; i < length; i++)
        text += sprintf(text, i + 1 < length ? "%02X " : "%02X", bytes[i]);
}

/* What the gate answers to these wire bytes; several answers are parted by a semicolon. */
static const char *answer_to(const char *wire)
{
    static char text[1024];
    uint8_t bytes[512];
    size_t n = bytes_of(wire, bytes);
    text[0] = '\0';
    for (size_t i = 0; i < n; i++) {
        log_gate_taken taken = give(bytes[i]);
        EXPECT(taken.refusal == LOG_GATE_TAKEN);
        if (taken.length > 0 && text[0] != '\0')
            strcat(text, "; ");
        append_text(text, gate.answer, taken.length);
    }
    return text;
}

void expect_answer(const char *wire, const char *answer)
{
    const char *came = answer_to(wire);
    expect_row(strcmp(came, answer) == 0, "%s gives '%s', not '%s'", wire, came, answer);
}

static void read_answer(struct reply *reply, size_t length, size_t expected)
{
    uint8_t reader[LOG_GATE_READER];
    log_gate_read read = {0, 0, 0, 0};
    EXPECT(log_gate_reader_begin(reader, sizeof reader, expected) == LOG_GATE_TAKEN);
    for (size_t i = 0; i < length; i++) {
        EXPECT(read.whole == 0);
        read = log_gate_reader_byte(reader, sizeof reader, gate.answer[i], reply->data, sizeof reply->data);
        EXPECT(read.refusal == LOG_GATE_TAKEN);
    }
    reply->whole = read.whole == 1;
    reply->status = read.status;
    reply->length = read.length;
}

struct reply ask(uint8_t command, const char *data, size_t expected)
{
    uint8_t bytes[300], wire[LOG_GATE_COMMAND_ROOM];
    struct reply reply = {0};
    size_t n = bytes_of(data, bytes);
    log_gate_taken written = log_gate_write_command(command, bytes, n, wire, sizeof wire);
    EXPECT(written.refusal == LOG_GATE_TAKEN && written.length > 2);
    for (size_t i = 0; i < written.length; i++) {
        log_gate_taken taken = give(wire[i]);
        EXPECT(taken.refusal == LOG_GATE_TAKEN);
        EXPECT((taken.length > 0) == (i + 1 == written.length));
        if (taken.length > 0)
            read_answer(&reply, taken.length, expected);
    }
    EXPECT(reply.whole);
    return reply;
}

uint8_t status_of(uint8_t command, const char *data)
{
    return ask(command, data, 0).status;
}

uint8_t result_now(void)
{
    struct reply reply = ask(LOG_GATE_COMMAND_RESULT, "", 1);
    EXPECT(reply.status == LOG_GATE_DONE && reply.length == 1);
    return reply.data[0];
}
