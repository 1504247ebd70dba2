/* A frame's check sum, CRC-16, a bit at a time. */
#ifndef CHECK_SUM_H
#define CHECK_SUM_H

#include <stddef.h>
#include <stdint.h>

static inline unsigned check_sum(const uint8_t *bytes, size_t length)
{
    unsigned sum = 0xFFFF;
    for (size_t i = 0; i < 8 * length; i++) {
        unsigned fell_out = (sum ^ bytes[i / 8] >> i % 8) & 1;
        sum = sum >> 1 ^ (fell_out ? 0xA001 : 0);
    }
    return sum;
}

#endif
