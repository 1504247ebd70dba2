/* Every command that is served, in the order of their codes. */
#ifndef SERVED_H
#define SERVED_H

#include "../include/log_gate.h"

static const uint8_t served[] = {
#define COMMAND(code, name, statuses) code,
#include "reachable.h"
};

#define COMMAND(code, name, statuses) _Static_assert(LOG_GATE_##name == code, "the header has another code");
#include "reachable.h"

#endif
