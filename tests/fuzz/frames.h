/* Random Modbus frames: mostly ones that are carried out, and some of every kind that gets an exception or silence. */
#ifndef FRAMES_H
#define FRAMES_H

#include <stddef.h>
#include <stdint.h>

enum { READ_REGISTERS = 3, WRITE_REGISTER = 6, WRITE_REGISTERS = 16, MASK_REGISTER = 22, MOST_FRAME = 300 };

struct frame {
    uint8_t bytes[MOST_FRAME];
    size_t length;
};

/* For this station, or now and then another; its check sum is right, or now and then damaged. */
struct frame random_frame(uint8_t station);

#endif
