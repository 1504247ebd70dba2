/* What the virtual gate prints: where its ports are and how to talk to it, and at the end what came to pass. */
#ifndef GATE_PRINT_H
#define GATE_PRINT_H

#include "gate.h"

/* The paths of the service port and of the second port. */
void print_welcome(struct gate *gate, const char *service, const char *second);

void print_farewell(const struct gate *gate);

#endif
