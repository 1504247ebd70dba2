#include "random.h"

static uint64_t state = 1;

void random_seed(uint64_t seed)
{
    state = seed * 2 + 1; /* any but 0 */
}

/* xorshift64*, of which the upper half is used. */
uint32_t random_number(void)
{
    state ^= state >> 12;
    state ^= state << 25;
    state ^= state >> 27;
    return (uint32_t)((state * 0x2545F4914F6CDD1Dull) >> 32);
}

uint32_t below(uint32_t end)
{
    return random_number() % end;
}

uint8_t random_byte(void)
{
    return (uint8_t)random_number();
}

int one_in(uint32_t n)
{
    return below(n) == 0;
}

void random_fill(uint8_t *bytes, size_t length)
{
    for (size_t i = 0; i < length; i++)
        bytes[i] = random_byte();
}
