/* A tick, which may write one place of the ring. */
#include "thrown.h"

/* What a tick may write: the place of the ring that is next, as long as a set. */
static void look_at_place(const uint8_t *recorder)
{
    size_t set = 0, place = number_at(recorder + 64);
    for (size_t i = 0; i < recorder[18] && i < 8; i++)
        set += recorder[19 + 5 * i];
    int runs = recorder[0] == 1 && recorder[59] == 1 && number_at(recorder + 62) == 0;
    size_t from = runs ? BUFFER + place * set : 0, to = runs ? from + set : 0;
    expect(kept_but(&mem, from, to), "a tick writes outside its place");
    keep_memory(from, to);
}

void throw_tick(void)
{
    int is_live = lend_state(&state, live, sizeof live);
    lend_memory();
    uint8_t due = tick_refusal();
    uint8_t refusal = log_gate_tick(lent_bytes(&state), state.length, lent_bytes(&mem), mem.length);
    count(CALL_tick, refusal);
    expect(refusal == due, "tick: another refusal");
    if (due != LOG_GATE_TAKEN) {
        expect(kept(&state) && kept(&mem), "tick: refused and not untouched");
        return;
    }
    expect(kept_but(&state, RUN, APPLICATION), "a tick changes more than the recorder's run");
    look_at_place(state.kept + state.start + RECORDER);
    keep_live(is_live);
}
