/* The coil self-test: it watches the readings for some seconds. A coil that works is never still, so one that is still is bad. */
#ifndef GATE_SELF_TEST_H
#define GATE_SELF_TEST_H

#include "map.h"

#include <stdint.h>

enum { SELF_TEST_MS = 3000 };

struct self_test {
    uint32_t left; /* milliseconds; 0 where none runs */
    uint32_t first[COILS];
    uint8_t moved[COILS];
};

void self_test_begin(struct self_test *test, const uint8_t *memory);

/* A millisecond later. Returns 1 when it has just ended. */
int self_test_tick(struct self_test *test, const uint8_t *memory);

/* 0, or the number of the first bad coil. */
uint8_t self_test_result(const struct self_test *test);

#endif
