/*
 * The front panel: one button. It prepares the recorder for the next log, and the gate's program starts it when that log arrives. The
 * button and what it shows are one variable of the map, so that a technician can press it from afar.
 */
#ifndef GATE_PANEL_H
#define GATE_PANEL_H

#include <stdint.h>

/* What the variable holds: nothing to show, the button pressed, a prepared recorder that waits; or the status that refused. */
enum { PANEL_IDLE = 0, PANEL_PRESSED = 1, PANEL_WAITS = 2 };

/* The trace: so many readings of coil 1, so many milliseconds apart, from the log's arrival on. */
enum { PANEL_READINGS = 64, PANEL_STEP_MS = 10 };

/* The setup that the panel gives. Every reading is at or above its threshold, so the first set triggers and the others follow it. */
enum { PANEL_SETUP = 19 };
extern const uint8_t panel_setup[PANEL_SETUP];

struct panel {
    uint32_t logs; /* that had come when the recorder was prepared */
};

int panel_is_pressed(const uint8_t *memory);

/* The recorder was prepared, or not, with this status. */
void panel_prepared(struct panel *panel, uint8_t status, uint8_t *memory);

/* Whether a log has come since. */
int panel_log_came(const struct panel *panel, const uint8_t *memory);

/* The recorder was started, or not, with this status. */
void panel_started(uint8_t status, uint8_t *memory);

#endif
