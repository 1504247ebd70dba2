/* The gate that the subjects of the smoke test share, and both ends of its line. */
#ifndef GATE_H
#define GATE_H

#include "../../include/log_gate.h"
#include "../layout.h"
#include "expect.h"

#include <string.h>

struct gate {
    uint8_t state[LOG_GATE_STATE];
    uint8_t memory[LOG_GATE_MEMORY];
    uint8_t answer[LOG_GATE_ANSWER_ROOM];
};

/* The gate, and what a subject kept of it; whether it is still so. */
extern struct gate gate, before;
bool untouched(void);

/* A memory of zeros too. */
void reset(void);
log_gate_taken give(uint8_t byte);
void tick(void);

/* What the gate answers to these wire bytes; several answers are parted by a semicolon. */
void expect_answer(const char *wire, const char *answer);

/* A command written, given to the gate, and its answer read. */
struct reply {
    bool whole;
    uint8_t status, length;
    uint8_t data[LOG_GATE_DATA_ROOM];
};

struct reply ask(uint8_t command, const char *data, size_t expected);
uint8_t status_of(uint8_t command, const char *data);

/* What 0xC6 answers. */
uint8_t result_now(void);

#endif
