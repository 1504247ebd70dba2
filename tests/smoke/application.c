/* Commands for the gate's own program: the way of one, its part of the state, and the refusals of collecting and reporting. */
#include "states.h"

/* Whether the gate's program collects just this command, and bytes behind it stay; "" is nothing new. */
static bool collects(const char *command)
{
    uint8_t due[LOG_GATE_DATA_ROOM + 4], out[sizeof due];
    memset(due, UNWRITTEN, sizeof due);
    memset(out, UNWRITTEN, sizeof out);
    size_t count = bytes_of(command, due);
    log_gate_taken taken = log_gate_collect(gate.state, sizeof gate.state, out, sizeof out);
    return taken.refusal == LOG_GATE_TAKEN && taken.length == count && memcmp(out, due, sizeof out) == 0;
}

static log_gate_result report(uint8_t result)
{
    return log_gate_report(gate.state, sizeof gate.state, result);
}

log_gate_result report_over(size_t state, bool right)
{
    return log_gate_report(gate.state, state, right ? 0 : 0xFF);
}

/* The way of a command, twice: the second is shorter, and a result stands until a new command is accepted. */
static void test_way(void)
{
    reset();
    EXPECT(result_now() == LOG_GATE_NO_COMMAND && collects(""));
    expect_answer("2B 10 03 07 2B 2B 09 B2", "2B 00 00");
    EXPECT(result_now() == LOG_GATE_RESULT_DUE);
    EXPECT(status_of(LOG_GATE_SEND_COMMAND, "01") == LOG_GATE_BUSY && status_of(LOG_GATE_SEND_COMMAND, "") == LOG_GATE_BUSY);
    EXPECT(collects("07 2B 09") && collects(""));
    EXPECT(result_now() == LOG_GATE_RESULT_DUE && status_of(LOG_GATE_SEND_COMMAND, "") == LOG_GATE_BUSY);
    EXPECT(report(0x2B) == LOG_GATE_TAKEN);
    expect_answer("2B C6 3A", "2B 00 2B 2B D5");
    EXPECT(status_of(LOG_GATE_SEND_COMMAND, "") == LOG_GATE_LAYOUT_WRONG && result_now() == 0x2B && collects(""));
    EXPECT(status_of(LOG_GATE_SEND_COMMAND, "01") == LOG_GATE_DONE && result_now() == LOG_GATE_RESULT_DUE);
    EXPECT(collects("01") && report(LOG_GATE_MOST_RESULT) == LOG_GATE_TAKEN && result_now() == LOG_GATE_MOST_RESULT);
    EXPECT(log_gate_reset(gate.state, sizeof gate.state) == LOG_GATE_TAKEN && result_now() == LOG_GATE_NO_COMMAND);
}

/* A code and 63 arguments; a 64th is too long, whether something is pending or not. */
static void test_longest_command(void)
{
    char data[3 * 66] = "2B";
    for (unsigned i = 0; i < 63; i++)
        strcat(data, " 2B");
    reset();
    EXPECT(status_of(LOG_GATE_SEND_COMMAND, data) == LOG_GATE_DONE && collects(data) && report(0) == LOG_GATE_TAKEN);
    strcat(data, " 2B");
    EXPECT(status_of(LOG_GATE_SEND_COMMAND, data) == LOG_GATE_MESSAGE_TOO_LONG && result_now() == 0);
    EXPECT(status_of(LOG_GATE_SEND_COMMAND, "01") == LOG_GATE_DONE);
    EXPECT(status_of(LOG_GATE_SEND_COMMAND, data) == LOG_GATE_MESSAGE_TOO_LONG && collects("01"));
}

/* Whether the application's part is these bytes, and 0xA5 behind them. */
static bool application_is(const char *begins)
{
    uint8_t due[APPLICATION_SIZE];
    memset(due, 0xA5, sizeof due);
    bytes_of(begins, due);
    return memcmp(gate.state + APPLICATION, due, sizeof due) == 0;
}

/* Phase, count, result and the command's bytes: each step writes its own and leaves the others. */
static void test_layout(void)
{
    reset();
    memset(gate.state + APPLICATION + COUNT, 0xA5, APPLICATION_SIZE - COUNT);
    EXPECT(status_of(LOG_GATE_SEND_COMMAND, "07 09") == LOG_GATE_DONE && application_is("01 02 00 07 09"));
    EXPECT(collects("07 09") && application_is("02 02 00 07 09"));
    EXPECT(report(5) == LOG_GATE_TAKEN && application_is("03 00 05 07 09"));
    EXPECT(status_of(LOG_GATE_SEND_COMMAND, "08") == LOG_GATE_DONE && application_is("01 01 00 08 09"));
}

static log_gate_result collect_refused(size_t state, size_t room)
{
    uint8_t out[LOG_GATE_DATA_ROOM];
    memset(out, UNWRITTEN, sizeof out);
    log_gate_taken taken = log_gate_collect(gate.state, state, out, room);
    EXPECT(taken.length == 0 && unwritten(out, sizeof out));
    return taken.refusal;
}

log_gate_result collect_over(size_t state, bool right)
{
    return collect_refused(state, right ? LOG_GATE_DATA_ROOM : LOG_GATE_DATA_ROOM - 1);
}

/* What both calls refuse as long as no collected command is pending. */
static void expect_nothing_to_report(void)
{
    size_t sound = LOG_GATE_STATE, room = LOG_GATE_DATA_ROOM;
    before = gate;
    EXPECT(collect_refused(sound - 1, room - 1) == LOG_GATE_STATE_REFUSED);
    EXPECT(collect_refused(sound, room - 1) == LOG_GATE_ROOM_REFUSED && collect_refused(sound, 0) == LOG_GATE_ROOM_REFUSED);
    EXPECT(log_gate_report(gate.state, sound - 1, 0xFF) == LOG_GATE_STATE_REFUSED);
    EXPECT(report(0) == LOG_GATE_RESULT_REFUSED && report(0xFD) == LOG_GATE_RESULT_REFUSED);
    EXPECT(report(0xFE) == LOG_GATE_RESULT_REFUSED && report(0xFF) == LOG_GATE_RESULT_REFUSED);
    EXPECT(untouched());
}

static void test_refusals(void)
{
    reset();
    expect_nothing_to_report();
    EXPECT(status_of(LOG_GATE_SEND_COMMAND, "01 02") == LOG_GATE_DONE);
    expect_nothing_to_report();
    EXPECT(collects("01 02"));
    before = gate;
    EXPECT(collect_refused(LOG_GATE_STATE, LOG_GATE_DATA_ROOM - 1) == LOG_GATE_ROOM_REFUSED);
    EXPECT(log_gate_report(gate.state, LOG_GATE_STATE - 1, 0) == LOG_GATE_STATE_REFUSED);
    EXPECT(report(0xFE) == LOG_GATE_RESULT_REFUSED && report(0xFF) == LOG_GATE_RESULT_REFUSED);
    EXPECT(untouched() && report(0) == LOG_GATE_TAKEN && !untouched());
    expect_nothing_to_report();
}

/* Phase, count and result of the application's part, and whether they are within bounds; the command's bytes are anything. */
static void test_bounds(void)
{
    static const struct {
        uint8_t phase, count, result;
        bool taken;
    } parts[] = {{0, 255, 255, true}, {1, 0, 0, false},  {1, 1, 255, true},     {1, 64, 255, true},  {1, 65, 0, false},
                 {2, 0, 255, true},   {2, 255, 0, true}, {3, 255, 0xFD, true},  {3, 0, 0xFE, false}, {3, 1, 255, false},
                 {3, 0, 0, true},     {4, 1, 0, false},  {0x81, 1, 0, false}};
    for (size_t i = 0; i < sizeof parts / sizeof parts[0]; i++) {
        reset();
        gate.state[APPLICATION + PHASE] = parts[i].phase;
        gate.state[APPLICATION + COUNT] = parts[i].count;
        gate.state[APPLICATION + RESULT] = parts[i].result;
        memset(gate.state + APPLICATION + COMMAND, 0xFF, APPLICATION_SIZE - COMMAND);
        if (parts[i].taken)
            EXPECT(log_gate_check(gate.state, sizeof gate.state) == LOG_GATE_TAKEN);
        else
            expect_all_refuse();
    }
}

void test_application(void)
{
    test_way();
    test_longest_command();
    test_layout();
    test_refusals();
    test_bounds();
}
