#include "panel.h"

#include "../include/log_gate.h"
#include "map.h"
#include "memory.h"

enum { RISING = 1, NO_SIGN = 0 };

/* mode, samples, post-trigger, divider; the trigger's address, size, sign, threshold; one variable of 2 bytes */
const uint8_t panel_setup[PANEL_SETUP] = {
    RISING, PANEL_READINGS, 0, PANEL_READINGS - 1, 0, PANEL_STEP_MS - 1, 0, COIL_1, 0, 2, NO_SIGN, 0, 0, 0, 0, 1, 2, COIL_1, 0,
};

int panel_is_pressed(const uint8_t *memory)
{
    return memory[PANEL] == PANEL_PRESSED;
}

void panel_prepared(struct panel *p, uint8_t status, uint8_t *memory)
{
    p->logs = number_at(memory + LOGS, 4);
    memory[PANEL] = status == LOG_GATE_DONE ? PANEL_WAITS : status;
}

int panel_log_came(const struct panel *p, const uint8_t *memory)
{
    return memory[PANEL] == PANEL_WAITS && number_at(memory + LOGS, 4) != p->logs;
}

/* A recorder that the laptop has started meanwhile runs as well. */
void panel_started(uint8_t status, uint8_t *memory)
{
    memory[PANEL] = status <= LOG_GATE_RECORDER_RUNS ? PANEL_IDLE : status;
}
