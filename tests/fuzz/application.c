/* Commands for the gate's own program: its part of the state, what a message makes of it, collecting and reporting. */
#include "thrown.h"

#include <stdio.h>

static uint64_t handed_out;

/* The bounds that docs/STATE.md gives for the application's part. */
static int application_sound(const uint8_t *part)
{
    switch (part[PHASE]) {
    case NO_COMMAND: case COLLECTED: return 1;
    case WAITING: return 1 <= part[COUNT] && part[COUNT] <= 64;
    case ENDED: return part[RESULT] <= 0xFD;
    default: return 0;
    }
}

/* The live state with every phase, and counts and results at their edges: its bounds are these and no other. */
void sweep_application(void)
{
    static const uint8_t edges[] = {0, 1, 63, 64, 65, 0xFC, 0xFD, 0xFE, 0xFF};
    uint8_t swept[LOG_GATE_STATE], *part = swept + APPLICATION;
    memcpy(swept, live, sizeof swept);
    random_fill(part + COMMAND, APPLICATION_SIZE - COMMAND);
    for (unsigned at = 0; at < 256 * sizeof edges * sizeof edges; at++) {
        part[PHASE] = (uint8_t)at;
        part[COUNT] = edges[at / 256 % sizeof edges];
        part[RESULT] = edges[at / 256 / sizeof edges];
        uint8_t refusal = log_gate_check(swept, sizeof swept);
        count(CALL_check, refusal);
        expect((refusal == LOG_GATE_TAKEN) == application_sound(part), "check: other bounds of the application's part");
    }
}

/* 0xFF before any command, 0xFE until the result is in, then the result. */
static uint8_t result_byte(const uint8_t *part)
{
    return part[PHASE] == NO_COMMAND ? 0xFF : part[PHASE] == ENDED ? part[RESULT] : 0xFE;
}

/* An accepted 0x10 stores itself and leaves the bytes behind; whatever else is answered leaves the whole part. */
void look_at_application(const uint8_t *answer, size_t answer_length)
{
    (void)answer_length;
    const uint8_t *before = state.kept + state.start;
    uint8_t due[APPLICATION_SIZE], command = before[2], length = before[3];
    memcpy(due, before + APPLICATION, sizeof due);
    if (command == LOG_GATE_SEND_COMMAND && answer[1] == LOG_GATE_DONE) {
        expect(1 <= length && length <= 64 && result_byte(due) != 0xFE, "a command is accepted that should be refused");
        due[PHASE] = WAITING;
        due[COUNT] = length;
        due[RESULT] = 0;
        memcpy(due + COMMAND, before + BODY, length);
    }
    if (command == LOG_GATE_COMMAND_RESULT && answer[1] == LOG_GATE_DONE)
        expect(answer[2] == result_byte(due), "0xC6 answers another byte");
    expect(memcmp(lent_bytes(&state) + APPLICATION, due, sizeof due) == 0, "a message leaves another application's part");
}

static uint8_t collect_refusal(void)
{
    uint8_t refusal = state_refusal();
    return refusal == LOG_GATE_TAKEN && out.length < LOG_GATE_DATA_ROOM ? LOG_GATE_ROOM_REFUSED : refusal;
}

void throw_collect(void)
{
    int is_live = lend_state(&state, live, sizeof live);
    lend_room(some_length(LOG_GATE_DATA_ROOM, 60));
    uint8_t due = collect_refusal();
    log_gate_taken taken = log_gate_collect(lent_bytes(&state), state.length, lent_bytes(&out), out.length);
    count(CALL_collect, taken.refusal);
    expect(taken.refusal == due, "collect: another refusal");
    if (due != LOG_GATE_TAKEN) {
        expect(taken.length == 0 && kept(&state) && kept(&out), "collect: refused and not untouched");
        return;
    }
    const uint8_t *part = state.kept + state.start + APPLICATION;
    int is_new = part[PHASE] == WAITING;
    handed_out += (unsigned)is_new;
    expect(taken.length == (is_new ? part[COUNT] : 0u), "collect: another length");
    expect(memcmp(lent_bytes(&out), part + COMMAND, taken.length) == 0, "collect: another command");
    expect(kept_but(&out, 0, taken.length), "collect: bytes behind the command");
    expect(kept_but(&state, APPLICATION + PHASE, APPLICATION + PHASE + (size_t)is_new), "collect: more than the phase");
    expect(!is_new || lent_bytes(&state)[APPLICATION + PHASE] == COLLECTED, "collect: another phase");
    digest_bytes(lent_bytes(&out), taken.length);
    keep_live(is_live);
}

static uint8_t report_refusal(uint8_t result)
{
    if (state_refusal() != LOG_GATE_TAKEN)
        return LOG_GATE_STATE_REFUSED;
    return result > 0xFD || lent_bytes(&state)[APPLICATION + PHASE] != COLLECTED ? LOG_GATE_RESULT_REFUSED : LOG_GATE_TAKEN;
}

void throw_report(void)
{
    int is_live = lend_state(&state, live, sizeof live);
    uint8_t result = one_in(4) ? (uint8_t)(0xFC + below(4)) : random_byte();
    uint8_t due = report_refusal(result);
    uint8_t refusal = log_gate_report(lent_bytes(&state), state.length, result);
    count(CALL_report, refusal);
    expect(refusal == due, "report: another refusal");
    if (due != LOG_GATE_TAKEN) {
        expect(kept(&state), "report: refused and not untouched");
        return;
    }
    const uint8_t *part = lent_bytes(&state) + APPLICATION;
    expect(kept_but(&state, APPLICATION, APPLICATION + COMMAND), "report: more than phase, count and result");
    expect(part[COUNT] == 0, "report: a count");
    expect(part[PHASE] == ENDED && part[RESULT] == result, "report: another phase or result");
    keep_live(is_live);
}

void tell_application(void)
{
    printf("commands handed out %llu\n", (unsigned long long)handed_out);
}

void require_application(void)
{
    expect(handed_out > 0, "no command was ever handed out");
}
