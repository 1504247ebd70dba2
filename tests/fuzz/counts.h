/* What the fuzzing loop counts and says, and a digest of all that the calls gave, by which two archives can be compared. */
#ifndef COUNTS_H
#define COUNTS_H

#include <stddef.h>
#include <stdint.h>

/* Which run this is, and its round. */
extern uint64_t seed, rounds, current;

/* The run ends where something does not hold. */
void expect(int holds, const char *what);

extern uint64_t digest;
void digest_bytes(const uint8_t *bytes, size_t length);

/* Every call of the header, in the order of tests/reachable.h. */
enum call {
#define CALL(name, line, by_scripts, besides) CALL_##name,
#include "../reachable.h"
    CALLS
};

void count(enum call call, uint8_t refusal);

/* A status answered a message. */
void count_answer(uint8_t status);

enum { REFUSALS = 256, STATUSES = 256 };

/* Whether a result stands in a row of tests/reachable.h, which has its results to this base. */
enum { DECIMAL = 10, HEX = 16 };
int is_listed(const char *results, unsigned result, int base);

/* A line with how often each status came. */
void tell_statuses(const char *what, const uint64_t *came);

#endif
