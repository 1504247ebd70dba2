/* Blocks that are lent as a state: short, garbage, and at odd addresses and longer than they need to be; every call over one. */
#include "states.h"

/* Neither of these is lent anything else. */
log_gate_result reset_over(size_t state, bool right)
{
    (void)right;
    return log_gate_reset(gate.state, state);
}

log_gate_result check_over(size_t state, bool right)
{
    (void)right;
    return log_gate_check(gate.state, state);
}

static const struct {
    const char *name;
    log_gate_result (*over)(size_t state, bool right);
    bool looks_at_bounds;
} calls[] = {
#define OVER_STATE(name, looks_at_bounds) {#name, name##_over, looks_at_bounds},
#include "subjects.h"
};

enum { CALLS = sizeof calls / sizeof calls[0] };

/* A state comes first in the order of refusals: so it is, whatever else is wrong. */
static void expect_refused(size_t call, size_t length)
{
    for (int right = 0; right < 2; right++)
        expect_row(calls[call].over(length, right) == LOG_GATE_STATE_REFUSED, "%s does not refuse %zu bytes as a state",
                   calls[call].name, length);
}

static void test_short_blocks(void)
{
    reset();
    before = gate;
    for (size_t length = 0; length < LOG_GATE_STATE; length++)
        for (size_t i = 0; i < CALLS; i++)
            expect_refused(i, length);
    EXPECT(untouched());
}

void expect_all_refuse(void)
{
    before = gate;
    for (size_t i = 0; i < CALLS; i++)
        if (calls[i].looks_at_bounds)
            expect_refused(i, LOG_GATE_STATE);
    EXPECT(untouched());
}

static void test_garbage_blocks(void)
{
    static const struct {
        unsigned at;
        uint8_t value;
    } garbage[] = {{0, 2}, {0, 255}, {1, 4}, {SCOPE, 9}, {SCOPE, 1}, {RECORDER, 2}, {RECORDER, 1}, {RECORDER, 255},
                   {APPLICATION, 1}, {APPLICATION, 4}, {APPLICATION, 255}, {TABLES, 17}, {TABLES, 255}};
    for (size_t i = 0; i < sizeof garbage / sizeof garbage[0]; i++) {
        reset();
        gate.state[garbage[i].at] = garbage[i].value;
        expect_all_refuse();
    }
}

/* A staple with every block at an odd address and longer than it needs to be; what is behind stays. */
static void test_odd_blocks(void)
{
    static uint8_t state[8 + LOG_GATE_STATE + 100], memory[8 + LOG_GATE_MEMORY], answer[8 + 200], list[16];
    static const uint8_t expected[] = {0x2B, 0x00, 0x7F, 0x81, UNWRITTEN};
    const uint8_t wire[] = {0x2B, 0xD0, 0x10, 0x00, 0x20};
    for (size_t odd = 1; odd < 8; odd++) {
        memset(state, UNWRITTEN, sizeof state);
        memset(answer, UNWRITTEN, sizeof answer);
        memory[odd + 16] = 0x7F;
        EXPECT(log_gate_reset(state + odd, LOG_GATE_STATE + 92) == LOG_GATE_TAKEN);
        memcpy(list + odd, "\x00\x20\x08\x00", LOG_GATE_TABLE);
        EXPECT(log_gate_register(state + odd, LOG_GATE_STATE + 92, memory + odd, LOG_GATE_MEMORY, list + odd,
                                 LOG_GATE_TABLE) == LOG_GATE_TAKEN);
        for (size_t i = 0; i < sizeof wire; i++) {
            log_gate_taken taken =
                log_gate_byte(state + odd, LOG_GATE_STATE + 92, wire[i], memory + odd, LOG_GATE_MEMORY, answer + odd, 200);
            EXPECT(taken.refusal == LOG_GATE_TAKEN && taken.length == (i + 1 < sizeof wire ? 0u : 4u));
        }
        EXPECT(memcmp(answer + odd, expected, sizeof expected) == 0 && answer[odd - 1] == UNWRITTEN);
        memset(answer, UNWRITTEN, sizeof answer);
        EXPECT(log_gate_block(state + odd, LOG_GATE_STATE + 92, wire, sizeof wire, memory + odd, LOG_GATE_MEMORY, answer + odd, 200)
                   .written == 4);
        EXPECT(memcmp(answer + odd, expected, sizeof expected) == 0 && answer[odd - 1] == UNWRITTEN);
        EXPECT(log_gate_check(state + odd, LOG_GATE_STATE) == LOG_GATE_TAKEN);
        for (size_t i = 0; i < 92; i++)
            EXPECT(state[odd + LOG_GATE_STATE + i] == UNWRITTEN);
    }
}

void test_states(void)
{
    test_short_blocks();
    test_garbage_blocks();
    test_odd_blocks();
}
