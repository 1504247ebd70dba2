/* A byte: what it may change while a message is unfinished, and what with an answer. */
#include "thrown.h"
#include "traffic.h"

static void look_at_unfinished(void)
{
    expect(changed_in(&state, BODY, SCOPE) <= 1 && kept_but(&state, 0, SCOPE),
           "an unfinished byte changes more than the receiver and a body byte");
    expect(kept(&mem) && kept(&out), "an unfinished byte changes memory or answer");
}

static void look_at_answer(size_t length)
{
    uint8_t *answer = lent_bytes(&out);
    count_answer(answer[1]);
    digest_bytes(answer, length);
    expect(3 <= length && length <= LOG_GATE_ANSWER_ROOM && answer[0] == 0x2B, "an answer that is none");
    expect(kept_but(&out, 0, length), "bytes behind the answer");
    expect(kept_but(&mem, 0, VARIABLES_END), "a command writes outside the variables");
    expect(changed_in(&state, BODY, SCOPE) == 0, "an answered byte changes the body");
    if (answer[1] >= 0x80)
        expect(length == 3 && kept(&mem) && kept_but(&state, 0, BODY), "a refused message changes the gate");
#define ANSWERED(name) look_at_##name(answer, length);
#include "subjects.h"
    keep_memory(0, VARIABLES_END);
}

void throw_byte(void)
{
    int is_live = lend_state(&state, live, sizeof live);
    lend_memory();
    lend_room(some_length(LOG_GATE_ANSWER_ROOM, 60));
    uint8_t due = byte_refusal();
    uint8_t byte = is_live && due == LOG_GATE_TAKEN ? next_wire_byte() : one_in(4) ? 0x2B : random_byte();
    log_gate_taken taken = log_gate_byte(lent_bytes(&state), state.length, byte, lent_bytes(&mem), mem.length,
                                         lent_bytes(&out), out.length);
    count(CALL_byte, taken.refusal);
    expect(taken.refusal == due, "byte: another refusal");
    if (due != LOG_GATE_TAKEN) {
        expect(taken.length == 0 && kept(&state) && kept(&mem) && kept(&out), "byte: refused and not untouched");
        return;
    }
    expect(kept_but(&state, 0, LOG_GATE_STATE), "bytes behind the state");
    if (taken.length == 0)
        look_at_unfinished();
    else
        look_at_answer(taken.length);
    keep_live(is_live);
}
