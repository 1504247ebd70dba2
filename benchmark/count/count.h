/* What the cases share: a gate, messages to it, and what stands before. */
#ifndef COUNT_H
#define COUNT_H

#include "../../include/log_gate.h"

#include <stdbool.h>
#include <string.h>

#define CASE(name, calls, what, prepare, repeat) void prepare(void), repeat(void);
#include "cases.h"

extern uint8_t state[LOG_GATE_STATE], memory[LOG_GATE_MEMORY], answer[LOG_GATE_ANSWER_ROOM], data[LOG_GATE_DATA_ROOM];

/* What a case gives, and what it gives behind that. */
extern struct message {
    uint8_t wire[LOG_GATE_COMMAND_ROOM];
    size_t length;
} message, second;

/* A case must not measure a refusal. */
void expect(bool holds, const char *what);

/* So many bytes of a message, one by one; the length of the answer to the last. It stands here so that no call of it is counted. */
static inline size_t give(const struct message *m, size_t length)
{
    log_gate_taken taken = {0, 0};
    for (size_t i = 0; i < length; i++)
        taken = log_gate_byte(state, sizeof state, m->wire[i], memory, sizeof memory, answer, sizeof answer);
    return taken.length;
}

/* A message that the gate takes; it is given once. */
void form(struct message *m, uint8_t command, const uint8_t *bytes, size_t length);

#endif
