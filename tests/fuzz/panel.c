/* The front panel, beside the same given as a message to a copy whose link is idle. */
#include "thrown.h"
#include "traffic.h"

#include <stdio.h>

/* What the panel does, by the calls of tests/reachable.h; how often each was told each status. */
enum {
#define PANEL(name, line, statuses) PANEL_##name,
#include "../reachable.h"
    PANELS
};

static const struct {
    const char *name, *statuses;
} panels[PANELS] = {
#define PANEL(name, line, statuses) {"panel, " #name, statuses},
#include "../reachable.h"
};

static uint64_t said[PANELS][STATUSES];

static uint8_t as_message[LOG_GATE_STATE];

/* The status that the message gets, which leaves the copy. */
static uint8_t status_as_message(const struct message *m)
{
    static uint8_t memory[LOG_GATE_MEMORY];
    uint8_t bytes[LOG_GATE_COMMAND_ROOM], answer[LOG_GATE_ANSWER_ROOM];
    size_t length = log_gate_write_command(m->command, m->data, m->length, bytes, sizeof bytes).length;
    memcpy(as_message, lent_bytes(&state), sizeof as_message);
    memset(as_message, 0, BODY);
    log_gate_block_taken came =
        log_gate_block(as_message, sizeof as_message, bytes, length, memory, sizeof memory, answer, sizeof answer);
    expect(came.refusal == LOG_GATE_TAKEN && came.taken == length && came.written == 3, "a message to the recorder gets no status");
    return answer[1];
}

/* A data part for the panel; now and then longer than a message may have. */
static struct message random_setup(void)
{
    struct message m = {.command = LOG_GATE_SET_UP_RECORDER};
    fill_standard(&m);
    if (one_in(8)) {
        m.length = 60 + below(sizeof m.data - 60 + 1);
        random_fill(m.data, m.length);
    }
    return m;
}

/* The recorder is as the message left it, but not started where it was only prepared. Nothing else changes. */
static void look_at_recorder(int what, uint8_t status)
{
    if (what == PANEL_prepare && status == LOG_GATE_DONE)
        as_message[RUN] = 0;
    expect(kept_but(&state, RECORDER, APPLICATION), "panel: more than the recorder");
    expect(memcmp(lent_bytes(&state) + RECORDER, as_message + RECORDER, APPLICATION - RECORDER) == 0,
           "panel: another recorder than a message leaves");
}

void throw_panel(void)
{
    int what = one_in(4) ? PANEL_start : PANEL_prepare;
    struct message m = what == PANEL_prepare ? random_setup() : (struct message){.command = LOG_GATE_START_RECORDER};
    int is_live = lend_state(&state, live, sizeof live);
    lend(&block, m.data, m.length, m.length);
    uint8_t due = state_refusal(), status = due == LOG_GATE_TAKEN ? status_as_message(&m) : LOG_GATE_NOT_SERVED;
    log_gate_said came = what == PANEL_prepare
                             ? log_gate_prepare(lent_bytes(&state), state.length, lent_bytes(&block), block.length)
                             : log_gate_start(lent_bytes(&state), state.length);
    count(what == PANEL_prepare ? CALL_prepare : CALL_start, came.refusal);
    expect(came.refusal == due && came.status == status, "panel: another refusal or status");
    expect(kept(&block), "panel: changes the data part");
    if (due != LOG_GATE_TAKEN) {
        expect(kept(&state), "panel: refused and not untouched");
        return;
    }
    said[what][status]++;
    digest_bytes(&status, 1);
    look_at_recorder(what, status);
    keep_live(is_live);
}

void tell_panel(void)
{
    for (int what = 0; what < PANELS; what++)
        tell_statuses(panels[what].name, said[what]);
}

void require_panel(void)
{
    for (int what = 0; what < PANELS; what++)
        for (unsigned status = 0; status < STATUSES; status++)
            expect(is_listed(panels[what].statuses, status, HEX) == (said[what][status] > 0),
                   "the panel is told a status too few or too many");
}
