#include "gate.h"

#include "names.h"

#include <stdio.h>
#include <stdlib.h>

/* A gate whose target refuses is broken: its state or its memory is not what the target left there. */
static void expect_taken(log_gate_result refusal)
{
    if (refusal == LOG_GATE_TAKEN)
        return;
    fprintf(stderr, "virtual gate: the target refuses with %u\n", refusal);
    exit(1);
}

void gate_begin(struct gate *g, uint64_t seed, uint16_t station)
{
    uint8_t list[LOG_GATE_TABLE];
    g->station = station;
    names_begin(g->memory, list);
    expect_taken(log_gate_register(g->state, sizeof g->state, g->memory, sizeof g->memory, list, sizeof list));
    scene_begin(&g->scene, seed, g->memory);
    gate_tick(g);
}

static void report(struct gate *g, uint8_t result)
{
    expect_taken(log_gate_report(g->state, sizeof g->state, result));
}

static void begin_command(struct gate *g, uint8_t code)
{
    if (code == SELF_TEST_CODE)
        self_test_begin(&g->self_test, g->memory);
    else
        report(g, UNKNOWN_CODE);
}

/* Until a result is reported no new command comes, so nothing can come between a self-test and its end. */
static void run_commands(struct gate *g)
{
    uint8_t command[LOG_GATE_DATA_ROOM];
    log_gate_taken taken = log_gate_collect(g->state, sizeof g->state, command, sizeof command);
    expect_taken(taken.refusal);
    if (taken.length > 0)
        begin_command(g, command[0]);
    else if (self_test_tick(&g->self_test, g->memory))
        report(g, self_test_result(&g->self_test));
}

static uint8_t status_of(log_gate_said said)
{
    expect_taken(said.refusal);
    return said.status;
}

static void use_panel(struct gate *g)
{
    if (panel_is_pressed(g->memory))
        panel_prepared(&g->panel, status_of(log_gate_prepare(g->state, sizeof g->state, panel_setup, PANEL_SETUP)), g->memory);
    else if (panel_log_came(&g->panel, g->memory))
        panel_started(status_of(log_gate_start(g->state, sizeof g->state)), g->memory);
}

void gate_tick(struct gate *g)
{
    scene_tick(&g->scene, g->memory);
    run_commands(g);
    use_panel(g);
    expect_taken(log_gate_tick(g->state, sizeof g->state, g->memory, sizeof g->memory));
    g->ticks++;
}

log_gate_block_taken gate_block(struct gate *g, const uint8_t *block, size_t length)
{
    log_gate_block_taken done =
        log_gate_block(g->state, sizeof g->state, block, length, g->memory, sizeof g->memory, g->answers, sizeof g->answers);
    expect_taken(done.refusal);
    return done;
}

size_t gate_frame(struct gate *g, const uint8_t *frame, size_t length)
{
    log_gate_taken taken =
        log_gate_modbus(g->station, frame, length, g->memory, sizeof g->memory, g->frame_answer, sizeof g->frame_answer);
    expect_taken(taken.refusal);
    return taken.length;
}
