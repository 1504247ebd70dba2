/* The technician's end of a service port: commands go out, and their answers are waited for. */
#ifndef GATE_TOOLS_LINE_H
#define GATE_TOOLS_LINE_H

#include "../../include/log_gate.h"

struct line {
    int port;
    uint8_t data[LOG_GATE_DATA_ROOM]; /* of the last right answer */
};

/* Opens the port at this path for raw bytes, and drops what came before. Returns 0 when it cannot; errno says why. */
int line_open(struct line *line, const char *path);

/* The next byte that comes, or -1 when none comes in time. */
int line_byte(struct line *line);

/* Sends a command and gives its answer's status, or -1 when no right answer comes; data are looked for in the number expected. */
int line_ask(struct line *line, uint8_t command, const uint8_t *body, size_t length, size_t expected);

#endif
