/*
 * The virtual gate without its port. A log stands in it with its nail under a coil: a recorder that starts then stops with its first
 * set. Its front panel prepares the recorder, which starts when the next log arrives. Frames are marked off by silence, and the
 * mill's controller finds the coils in registers.
 */
#include "../gate/frames.h"
#include "../gate/gate.h"
#include "../gate/map.h"
#include "../gate/memory.h"
#include "expect.h"

#include <stdio.h>

/* Milliseconds until a nail has come for sure, and from the alarm until it is well under a coil. */
enum { A_MINUTE = 60000, WELL_UNDER = 10 };

enum { RISING = 1, FALLING = 2, STATION = 1 };

static struct gate gate;

static uint8_t status_of(uint8_t command, const uint8_t *data, size_t length)
{
    uint8_t wire[LOG_GATE_COMMAND_ROOM];
    size_t sent = log_gate_write_command(command, data, length, wire, sizeof wire).length;
    log_gate_block_taken done = gate_block(&gate, wire, sent);
    expect(done.taken == sent && done.written > 2, "every command is answered");
    return gate.answers[1];
}

/* Where a coil reads metal, its belt stopped. */
static unsigned coil_over_metal(void)
{
    for (int i = 0; gate.memory[ALARM] == 0; i++) {
        expect(i < A_MINUTE, "a nail comes within a minute");
        gate_tick(&gate);
    }
    for (int i = 0; i < WELL_UNDER; i++)
        gate_tick(&gate);
    gate.memory[BELT_STOPPED] = 1;
    unsigned coil = COIL_1;
    while (number_at(gate.memory + coil, 2) < number_at(gate.memory + THRESHOLD, 2))
        coil += 2;
    return coil;
}

/* The status of a recorder that watches this coil, after its first tick. */
static uint8_t after_first_tick(unsigned coil, uint8_t mode)
{
    const uint8_t *threshold = gate.memory + THRESHOLD;
    /* mode, 16 sets, no post-trigger, no divider; the trigger's address, size, sign, threshold; one variable of 2 bytes */
    const uint8_t setup[] = {mode, 16, 0, 0, 0, 0, 0, (uint8_t)coil, 0, 2, 0, threshold[0], threshold[1], 0, 0, 1, 2, (uint8_t)coil, 0};
    expect(status_of(LOG_GATE_SET_UP_RECORDER, setup, sizeof setup) == LOG_GATE_DONE, "the setup is accepted");
    gate_tick(&gate);
    uint8_t status = status_of(LOG_GATE_RECORDER_STATUS, NULL, 0);
    status_of(LOG_GATE_STOP_RECORDER, NULL, 0);
    return status;
}

static void test_nail(void)
{
    unsigned coil = coil_over_metal();
    expect(after_first_tick(coil, RISING) == LOG_GATE_RECORDER_STOPPED, "metal under the coil fires at the first set");
    expect(after_first_tick(coil, FALLING) == LOG_GATE_RECORDER_RUNS, "above the threshold a falling trigger waits");
    gate.memory[BELT_STOPPED] = 0;
    printf("gate_test: a log stands at coil %u with its nail, and the recorder sees it\n", (coil - COIL_1) / 2 + 1);
}

/* ---- the front panel */

enum { BUFFER = 12288, WOOD_AT_LEAST = 350, LOG_AT_LEAST_MS = 500 };

static void press(void)
{
    gate.memory[PANEL] = PANEL_PRESSED;
    gate_tick(&gate);
}

/* The recorder stands while the panel waits; how long it does, in milliseconds. */
static unsigned wait_for_log(void)
{
    unsigned waited = 0;
    for (; gate.memory[PANEL] == PANEL_WAITS; waited++) {
        expect(waited < A_MINUTE, "a log comes within a minute");
        expect(status_of(LOG_GATE_RECORDER_STATUS, NULL, 0) == LOG_GATE_RECORDER_STOPPED, "a prepared recorder stands");
        gate_tick(&gate);
    }
    return waited;
}

static void test_panel(void)
{
    press();
    expect(gate.memory[PANEL] == PANEL_WAITS, "the panel waits for a log");
    unsigned waited = wait_for_log();
    expect(gate.memory[PANEL] == PANEL_IDLE && gate.memory[LOG_INSIDE] == 1, "the panel waits no longer than until the log arrives");
    expect(status_of(LOG_GATE_RECORDER_STATUS, NULL, 0) == LOG_GATE_RECORDER_RUNS, "the recorder is started as the log arrives");
    press();
    expect(gate.memory[PANEL] == LOG_GATE_BUSY, "a running recorder is not prepared");
    for (int i = 0; i < PANEL_READINGS * PANEL_STEP_MS; i++)
        gate_tick(&gate);
    expect(status_of(LOG_GATE_RECORDER_STATUS, NULL, 0) == LOG_GATE_RECORDER_STOPPED, "the trace is whole");
    for (unsigned i = 0; i < LOG_AT_LEAST_MS / PANEL_STEP_MS; i++)
        expect(number_at(gate.memory + BUFFER + 2 * i, 2) >= WOOD_AT_LEAST, "the trace begins with the log");
    printf("gate_test: prepared %u ms before the log, the recorder starts with it\n", waited);
}

/* ---- the second port */

enum { SILENCE = 5 };

static void test_frames(void)
{
    struct frames frames = {.length = 0};
    const uint8_t bytes[200] = {1, 3};
    expect(!frames_is_over(&frames, 1000, SILENCE), "silence before the first byte is no frame");
    frames_take(&frames, bytes, 2, 1000);
    expect(!frames_is_over(&frames, 1000 + SILENCE - 1, SILENCE), "a frame is not over before its silence");
    frames_take(&frames, bytes, 1, 1000 + SILENCE - 1);
    expect(!frames_is_over(&frames, 1000 + SILENCE, SILENCE), "every byte begins the silence anew");
    expect(frames_is_over(&frames, 1000 + 2 * SILENCE, SILENCE) && frames.length == 3, "then the frame is over");
    frames_begin(&frames);
    expect(!frames_is_over(&frames, 9000, SILENCE), "a frame is over once");
    frames_take(&frames, bytes, sizeof bytes, 9000);
    frames_take(&frames, bytes, sizeof bytes, 9000);
    expect(frames.length == FRAMES_ROOM && gate_frame(&gate, frames.bytes, frames.length) == 0, "what is longer than a frame is none");
}

/* Registers 8 to 11 are the coils, high byte first. */
static void test_registers(void)
{
    const uint8_t asked[] = {STATION, 3, 0, COIL_1 / 2, 0, COILS, 0xC5, 0xCB};
    expect(gate_frame(&gate, asked, sizeof asked) == 5 + 2 * COILS && gate.frame_answer[2] == 2 * COILS, "the coils can be read");
    for (int i = 0; i < 2 * COILS; i++)
        expect(gate.frame_answer[3 + i] == gate.memory[COIL_1 + (i ^ 1)], "each register is a coil");
    expect(gate_frame(&gate, asked, sizeof asked - 1) == 0, "a frame cut short gets silence");
}

int main(void)
{
    gate_begin(&gate, 1, STATION);
    test_nail();
    test_panel();
    test_frames();
    test_registers();
    return 0;
}
