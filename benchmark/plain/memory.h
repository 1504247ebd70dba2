/* The gate's memory: its areas, ranges in them, and little-endian numbers. */
#ifndef PLAIN_MEMORY_H
#define PLAIN_MEMORY_H

#include <stdbool.h>
#include <stdint.h>

enum { VARIABLES_END = 8192, CALIBRATION_END = 12288, MEMORY_END = 16384, BUFFER_SIZE = 4096 };

/* Whether a range ends at or below `end`; an EX address can be anything of 32 bits. */
static bool ends_by(uint32_t address, uint32_t size, uint32_t end)
{
    return address <= end && size <= end - address;
}

static uint32_t number_at(const uint8_t *bytes, unsigned width)
{
    uint32_t number = 0;
    for (unsigned i = 0; i < width; i++)
        number |= (uint32_t)bytes[i] << (8 * i);
    return number;
}

static void put_number(uint8_t *bytes, unsigned width, uint32_t number)
{
    for (unsigned i = 0; i < width; i++)
        bytes[i] = (uint8_t)(number >> (8 * i));
}

/* A bit set in the mask takes the value's bit; every other bit stays. */
static void store_masked(uint8_t *to, const uint8_t *values, const uint8_t *masks, unsigned size)
{
    for (unsigned i = 0; i < size; i++)
        to[i] = (uint8_t)((to[i] & ~masks[i]) | (values[i] & masks[i]));
}

#endif
