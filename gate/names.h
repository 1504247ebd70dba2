/* The table in which a laptop finds the gate's variables by their names. */
#ifndef GATE_NAMES_H
#define GATE_NAMES_H

#include "../include/log_gate.h"

/*
 * Writes the table and its strings into the calibration area, which no command can overwrite, and makes the list that registers
 * the table.
 */
void names_begin(uint8_t *memory, uint8_t list[LOG_GATE_TABLE]);

#endif
