/* Bytes lent to a call: at any alignment, with guards before and behind, and a copy of what they were. */
#ifndef LENT_H
#define LENT_H

#include "../../include/log_gate.h"
#include "random.h"

#include <string.h>

enum { GUARD = 16, ROOM = LOG_GATE_MEMORY + 64 };

struct lent {
    uint8_t bytes[GUARD + ROOM + GUARD];
    uint8_t kept[GUARD + ROOM + GUARD];
    size_t start, length;
};

/* So many bytes that begin with this content, as far as it goes. */
void lend(struct lent *l, const uint8_t *content, size_t size, size_t length);
uint8_t *lent_bytes(struct lent *l);

int same(const uint8_t *a, const uint8_t *b, size_t length);

/* Whether all but the bytes from..to of what was lent are as they were, the guards too. */
int kept_but(const struct lent *l, size_t from, size_t to);
int kept(const struct lent *l);

/* How many of the bytes from..to are not as they were. */
unsigned changed_in(const struct lent *l, size_t from, size_t to);

#endif
