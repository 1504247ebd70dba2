#include "self_test.h"

#include "memory.h"

static uint32_t reading_of(const uint8_t *memory, unsigned coil)
{
    return number_at(memory + COIL_1 + 2 * coil, 2);
}

void self_test_begin(struct self_test *t, const uint8_t *memory)
{
    *t = (struct self_test){.left = SELF_TEST_MS};
    for (unsigned coil = 0; coil < COILS; coil++)
        t->first[coil] = reading_of(memory, coil);
}

int self_test_tick(struct self_test *t, const uint8_t *memory)
{
    if (t->left == 0)
        return 0;
    for (unsigned coil = 0; coil < COILS; coil++)
        t->moved[coil] |= reading_of(memory, coil) != t->first[coil];
    t->left--;
    return t->left == 0;
}

uint8_t self_test_result(const struct self_test *t)
{
    for (unsigned coil = 0; coil < COILS; coil++)
        if (!t->moved[coil])
            return (uint8_t)(coil + 1);
    return 0;
}
