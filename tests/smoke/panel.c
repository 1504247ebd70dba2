/* The front panel prepares the recorder and starts it. */
#include "states.h"

/* Two samples of the byte at 16, without a trigger and without a divider. */
#define TWO_SAMPLES "00 02 00 00 00 00 00 00 00 00 00 00 00 00 00 01 01 10 00"

static uint8_t prepared(const char *data)
{
    uint8_t bytes[100];
    log_gate_said said = log_gate_prepare(gate.state, sizeof gate.state, bytes, bytes_of(data, bytes));
    EXPECT(said.refusal == LOG_GATE_TAKEN);
    return said.status;
}

static uint8_t started(void)
{
    log_gate_said said = log_gate_start(gate.state, sizeof gate.state);
    EXPECT(said.refusal == LOG_GATE_TAKEN);
    return said.status;
}

/* So many ticks, with 1, 2, 3 .. at byte 16. */
static void tick_values(uint8_t count)
{
    for (uint8_t value = 1; value <= count; value++) {
        gate.memory[16] = value;
        tick();
    }
}

/* A prepared recorder stands: it answers 0x02 and start index 0, and its ticks do nothing. */
static void expect_fresh(void)
{
    before = gate;
    tick_values(3);
    EXPECT(memcmp(gate.state, before.state, sizeof gate.state) == 0);
    EXPECT(memcmp(gate.memory + 12288, before.memory + 12288, 4096) == 0);
    expect_answer("2B C3 3D 2B C4 3C", "2B 02 FE; 2B 00 00 30 00 00 D0");
}

static void test_recording(void)
{
    reset();
    EXPECT(started() == LOG_GATE_NOT_SET_UP);
    EXPECT(prepared(TWO_SAMPLES) == LOG_GATE_DONE);
    expect_fresh();
    EXPECT(started() == LOG_GATE_DONE && started() == LOG_GATE_RECORDER_RUNS && prepared(TWO_SAMPLES) == LOG_GATE_BUSY);
    tick_values(3);
    expect_answer("2B C2 3E 2B C4 3C", "2B 00 00; 2B 00 00 30 01 00 CF");
    EXPECT(prepared(TWO_SAMPLES) == LOG_GATE_DONE);
    expect_fresh();
    EXPECT(gate.memory[12288] == 3 && gate.memory[12289] == 2);
    expect_answer("2B C1 3F", "2B 00 00");
    EXPECT(started() == LOG_GATE_RECORDER_RUNS);
    tick_values(1);
    EXPECT(gate.memory[12288] == 1 && gate.memory[12289] == 2);
}

/* Each status with what stands below it in the order also wrong; the former setup stays. */
static void test_statuses(void)
{
    static const struct {
        const char *data;
        uint8_t status, while_running;
    } parts[] = {
        {"", LOG_GATE_LAYOUT_WRONG, LOG_GATE_BUSY},
        {TWO_SAMPLES " 00", LOG_GATE_LAYOUT_WRONG, LOG_GATE_BUSY},
        {"03 00 00 00 00 00 00 00 00 00 00 00 00 00 00 01 01 00 30", LOG_GATE_LAYOUT_WRONG, LOG_GATE_BUSY},
        {"01 00 00 00 00 00 00 00 00 03 02 00 00 00 00 01 01 00 30", LOG_GATE_LAYOUT_WRONG, LOG_GATE_BUSY},
        {"00 00 00 00 00 00 00 00 00 00 00 00 00 00 00 01 01 00 30", LOG_GATE_SIZE_WRONG, LOG_GATE_BUSY},
        {"01 02 00 00 00 00 00 00 30 03 01 00 00 00 00 01 01 00 30", LOG_GATE_SIZE_WRONG, LOG_GATE_BUSY},
        {"00 02 00 00 00 00 00 00 00 00 00 00 00 00 00 01 01 00 30", LOG_GATE_RANGE_WRONG, LOG_GATE_BUSY},
    };
    char too_long[3 * 66] = TWO_SAMPLES;
    while (strlen(too_long) < 3 * 65 - 1)
        strcat(too_long, " 00");
    for (int running = 0; running < 2; running++) {
        reset();
        EXPECT(prepared(TWO_SAMPLES) == LOG_GATE_DONE && (!running || started() == LOG_GATE_DONE));
        before = gate;
        for (size_t i = 0; i < sizeof parts / sizeof parts[0]; i++)
            EXPECT(prepared(parts[i].data) == (running ? parts[i].while_running : parts[i].status));
        EXPECT(prepared(too_long) == LOG_GATE_MESSAGE_TOO_LONG);
        EXPECT(untouched());
    }
}

/* It is left as by a start and a stop with no tick between; and no part else is touched, a message on its way least of all. */
static void test_layout(void)
{
    reset();
    expect_answer("2B E5 10 00 F0", "");
    memset(gate.state + BODY + 3, 0xA5, SCOPE - BODY - 3);      /* data bytes that are still to come */
    memset(gate.state + SCOPE + 1, 0xA5, RECORDER - SCOPE - 1); /* definitions that no scope has */
    before = gate;
    EXPECT(prepared(TWO_SAMPLES) == LOG_GATE_DONE);
    struct gate fresh = gate;
    EXPECT(started() == LOG_GATE_DONE);
    EXPECT(memcmp(gate.state, before.state, RECORDER) == 0);
    EXPECT(memcmp(gate.state + APPLICATION, before.state + APPLICATION, LOG_GATE_STATE - APPLICATION) == 0);
    expect_answer("3C DF 2B C2 3E", "2B 00 00; 2B 00 00");
    EXPECT(memcmp(gate.state + RECORDER, fresh.state + RECORDER, APPLICATION - RECORDER) == 0);
}

log_gate_result prepare_over(size_t state, bool right)
{
    uint8_t data[100];
    log_gate_said said = log_gate_prepare(gate.state, state, data, bytes_of(right ? TWO_SAMPLES : "", data));
    EXPECT(said.status == (said.refusal == LOG_GATE_TAKEN ? LOG_GATE_DONE : LOG_GATE_NOT_SERVED));
    return said.refusal;
}

log_gate_result start_over(size_t state, bool right)
{
    (void)right; /* it is lent nothing else */
    log_gate_said said = log_gate_start(gate.state, state);
    EXPECT(said.refusal == LOG_GATE_TAKEN || said.status == LOG_GATE_NOT_SERVED);
    return said.refusal;
}

void test_panel(void)
{
    test_recording();
    test_statuses();
    test_layout();
}
