/* Reset and check, and the live state with each of its bytes changed. */
#include "thrown.h"

void throw_reset(void)
{
    int is_live = lend_state(&state, live, sizeof live);
    uint8_t refusal = log_gate_reset(lent_bytes(&state), state.length);
    count(CALL_reset, refusal);
    expect(refusal == (state.length < LOG_GATE_STATE), "reset: another refusal");
    expect(kept_but(&state, 0, refusal ? 0 : LOG_GATE_STATE), "reset: a byte that is not its own");
    if (refusal == LOG_GATE_TAKEN)
        keep_live(is_live && one_in(100));
}

void throw_check(void)
{
    lend_state(&state, live, sizeof live);
    uint8_t refusal = log_gate_check(lent_bytes(&state), state.length);
    count(CALL_check, refusal);
    expect(refusal <= LOG_GATE_STATE_REFUSED, "check: another refusal");
    expect(state.length >= LOG_GATE_STATE || refusal == LOG_GATE_STATE_REFUSED, "check: takes a short state");
    expect(kept(&state), "check: a changed byte");
}

/* The live state with each byte at each value. */
void sweep_bytes(void)
{
    for (size_t at = 0; at < sizeof live; at++)
        for (unsigned value = 0; value < 256; value++) {
            uint8_t kept_byte = live[at];
            live[at] = (uint8_t)value;
            uint8_t refusal = log_gate_check(live, sizeof live);
            count(CALL_check, refusal);
            live[at] = kept_byte;
            expect(refusal == LOG_GATE_TAKEN || value != kept_byte, "check: refuses a state that a call left");
        }
}
