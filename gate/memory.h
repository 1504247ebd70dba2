/* Little-endian numbers in the gate's memory. */
#ifndef GATE_MEMORY_H
#define GATE_MEMORY_H

#include <stdint.h>

static inline uint32_t number_at(const uint8_t *bytes, unsigned width)
{
    uint32_t number = 0;
    for (unsigned i = 0; i < width; i++)
        number |= (uint32_t)bytes[i] << (8 * i);
    return number;
}

static inline void put_number(uint8_t *bytes, unsigned width, uint32_t number)
{
    for (unsigned i = 0; i < width; i++)
        bytes[i] = (uint8_t)(number >> (8 * i));
}

#endif
