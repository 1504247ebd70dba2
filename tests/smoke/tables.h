/* Tables in the gate's memory, and lists of them. */
#ifndef TABLES_H
#define TABLES_H

#include "gate.h"

void put_number(uint8_t *bytes, unsigned number);

/* An entry; its name and its address are outside the memory, which nobody looks at. */
void put_entry(unsigned at, unsigned type, unsigned info);

/* The list as bytes: "00 20 08 00" is one table of one entry at 8,192. */
log_gate_result register_list(const char *list);

#endif
