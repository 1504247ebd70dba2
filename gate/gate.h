/* The gate itself: the target's state, the memory, and the scene in it. How it uses the calls is how firmware does. */
#ifndef GATE_GATE_H
#define GATE_GATE_H

#include "../include/log_gate.h"
#include "panel.h"
#include "scene.h"
#include "self_test.h"

/* The codes of 0x10 that the gate's program knows, and what it reports of any other. */
enum { SELF_TEST_CODE = 1, UNKNOWN_CODE = 0xFD };

/* Room for the answers to one block: four of the longest, or more short ones. */
enum { GATE_ANSWERS = 4 * LOG_GATE_ANSWER_ROOM };

struct gate {
    uint8_t state[LOG_GATE_STATE];
    uint8_t memory[LOG_GATE_MEMORY];
    uint8_t answers[GATE_ANSWERS];
    uint16_t station; /* that the gate is at the second port */
    uint8_t frame_answer[LOG_GATE_MODBUS_ROOM];
    struct scene scene;
    struct self_test self_test;
    struct panel panel;
    uint64_t ticks; /* made */
    uint64_t lost;  /* ticks that came too late to be made */
    uint64_t came, went; /* bytes at the service port, and bytes of answers */
    uint64_t frames_came, frames_went; /* at the second port, and answers */
};

/* The station is from 1 to 247. */
void gate_begin(struct gate *gate, uint64_t seed, uint16_t station);

/* A millisecond has passed. */
void gate_tick(struct gate *gate);

/* Bytes came. Tells how many were taken, and how many bytes of gate->answers are to be sent before the rest is given again. */
log_gate_block_taken gate_block(struct gate *gate, const uint8_t *block, size_t length);

/* A frame came over the second port. Tells how many bytes of gate->frame_answer are to be sent; 0 is silence. */
size_t gate_frame(struct gate *gate, const uint8_t *frame, size_t length);

#endif
