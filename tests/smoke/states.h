/* Every call over a state: made over so many bytes of the gate's, with all else that it is lent right, or all of it wrong. */
#ifndef STATES_H
#define STATES_H

#include "gate.h"

#define OVER_STATE(name, looks_at_bounds) log_gate_result name##_over(size_t state, bool right);
#include "subjects.h"

/* Those that look at a state's bounds refuse the gate's as it is now, and leave it. */
void expect_all_refuse(void);

#endif
