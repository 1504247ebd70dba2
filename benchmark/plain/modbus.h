/* The second port: a Modbus station on a serial line, over the memory alone. */
#ifndef PLAIN_MODBUS_H
#define PLAIN_MODBUS_H

#include "../../include/log_gate.h"
#include "memory.h"

#include <string.h>

enum { READ_REGISTERS = 3, WRITE_REGISTER = 6, WRITE_REGISTERS = 16, MASK_REGISTER = 22 };

enum { EXCEPTION_FUNCTION = 1, EXCEPTION_ADDRESS = 2, EXCEPTION_VALUE = 3 };

enum { SHORTEST_FRAME = 4, LONGEST_FRAME = 256, MOST_READ = 125, MOST_WRITTEN = 123, FIRST_STATION = 1, LAST_STATION = 247 };

/* What eight shifts make of each byte. */
static const uint16_t shifted[256] = {
    0x0000, 0xC0C1, 0xC181, 0x0140, 0xC301, 0x03C0, 0x0280, 0xC241, 0xC601, 0x06C0, 0x0780, 0xC741, 0x0500, 0xC5C1, 0xC481, 0x0440,
    0xCC01, 0x0CC0, 0x0D80, 0xCD41, 0x0F00, 0xCFC1, 0xCE81, 0x0E40, 0x0A00, 0xCAC1, 0xCB81, 0x0B40, 0xC901, 0x09C0, 0x0880, 0xC841,
    0xD801, 0x18C0, 0x1980, 0xD941, 0x1B00, 0xDBC1, 0xDA81, 0x1A40, 0x1E00, 0xDEC1, 0xDF81, 0x1F40, 0xDD01, 0x1DC0, 0x1C80, 0xDC41,
    0x1400, 0xD4C1, 0xD581, 0x1540, 0xD701, 0x17C0, 0x1680, 0xD641, 0xD201, 0x12C0, 0x1380, 0xD341, 0x1100, 0xD1C1, 0xD081, 0x1040,
    0xF001, 0x30C0, 0x3180, 0xF141, 0x3300, 0xF3C1, 0xF281, 0x3240, 0x3600, 0xF6C1, 0xF781, 0x3740, 0xF501, 0x35C0, 0x3480, 0xF441,
    0x3C00, 0xFCC1, 0xFD81, 0x3D40, 0xFF01, 0x3FC0, 0x3E80, 0xFE41, 0xFA01, 0x3AC0, 0x3B80, 0xFB41, 0x3900, 0xF9C1, 0xF881, 0x3840,
    0x2800, 0xE8C1, 0xE981, 0x2940, 0xEB01, 0x2BC0, 0x2A80, 0xEA41, 0xEE01, 0x2EC0, 0x2F80, 0xEF41, 0x2D00, 0xEDC1, 0xEC81, 0x2C40,
    0xE401, 0x24C0, 0x2580, 0xE541, 0x2700, 0xE7C1, 0xE681, 0x2640, 0x2200, 0xE2C1, 0xE381, 0x2340, 0xE101, 0x21C0, 0x2080, 0xE041,
    0xA001, 0x60C0, 0x6180, 0xA141, 0x6300, 0xA3C1, 0xA281, 0x6240, 0x6600, 0xA6C1, 0xA781, 0x6740, 0xA501, 0x65C0, 0x6480, 0xA441,
    0x6C00, 0xACC1, 0xAD81, 0x6D40, 0xAF01, 0x6FC0, 0x6E80, 0xAE41, 0xAA01, 0x6AC0, 0x6B80, 0xAB41, 0x6900, 0xA9C1, 0xA881, 0x6840,
    0x7800, 0xB8C1, 0xB981, 0x7940, 0xBB01, 0x7BC0, 0x7A80, 0xBA41, 0xBE01, 0x7EC0, 0x7F80, 0xBF41, 0x7D00, 0xBDC1, 0xBC81, 0x7C40,
    0xB401, 0x74C0, 0x7580, 0xB541, 0x7700, 0xB7C1, 0xB681, 0x7640, 0x7200, 0xB2C1, 0xB381, 0x7340, 0xB101, 0x71C0, 0x7080, 0xB041,
    0x5000, 0x90C1, 0x9181, 0x5140, 0x9301, 0x53C0, 0x5280, 0x9241, 0x9601, 0x56C0, 0x5780, 0x9741, 0x5500, 0x95C1, 0x9481, 0x5440,
    0x9C01, 0x5CC0, 0x5D80, 0x9D41, 0x5F00, 0x9FC1, 0x9E81, 0x5E40, 0x5A00, 0x9AC1, 0x9B81, 0x5B40, 0x9901, 0x59C0, 0x5880, 0x9841,
    0x8801, 0x48C0, 0x4980, 0x8941, 0x4B00, 0x8BC1, 0x8A81, 0x4A40, 0x4E00, 0x8EC1, 0x8F81, 0x4F40, 0x8D01, 0x4DC0, 0x4C80, 0x8C41,
    0x4400, 0x84C1, 0x8581, 0x4540, 0x8701, 0x47C0, 0x4680, 0x8641, 0x8201, 0x42C0, 0x4380, 0x8341, 0x4100, 0x81C1, 0x8081, 0x4040,
};

static uint32_t check_sum(const uint8_t *bytes, size_t length)
{
    uint32_t sum = 0xFFFF;
    for (size_t i = 0; i < length; i++)
        sum = sum >> 8 ^ shifted[(sum ^ bytes[i]) & 0xFF];
    return sum;
}

static unsigned word_at(const uint8_t *bytes)
{
    return bytes[0] * 256u + bytes[1];
}

/* Stations are from 1 on, so a broadcast is another station's. A frame with its own check sum behind it leaves 0. */
static bool frame_taken(unsigned station, const uint8_t *frame, size_t length)
{
    return SHORTEST_FRAME <= length && length <= LONGEST_FRAME && frame[0] == station && frame[1] < 0x80 &&
           check_sum(frame, length) == 0;
}

static size_t finish_frame(uint8_t *out, size_t length)
{
    put_number(out + length, 2, check_sum(out, length));
    return length + 2;
}

static size_t tell_exception(const uint8_t *frame, uint8_t code, uint8_t *out)
{
    out[0] = frame[0];
    out[1] = frame[1] | 0x80;
    out[2] = code;
    return finish_frame(out, 3);
}

/* An answer that begins as the request does. */
static size_t tell_beginning(const uint8_t *frame, size_t length, uint8_t *out)
{
    memcpy(out, frame, length);
    return finish_frame(out, length);
}

static bool registers_end_by(unsigned first, unsigned quantity, unsigned end)
{
    return 2 * (first + quantity) <= end;
}

/* A register's high byte comes first in a frame, its low byte in memory. */
static void copy_swapped(uint8_t *to, const uint8_t *from, unsigned quantity)
{
    for (; quantity > 0; quantity--, to += 2, from += 2) {
        uint8_t first = from[0];
        to[0] = from[1];
        to[1] = first;
    }
}

static size_t read_registers(const uint8_t *frame, size_t length, const uint8_t *memory, uint8_t *out)
{
    unsigned first = word_at(frame + 2), quantity = word_at(frame + 4);
    if (length != 8 || quantity == 0 || quantity > MOST_READ)
        return tell_exception(frame, EXCEPTION_VALUE, out);
    if (!registers_end_by(first, quantity, MEMORY_END))
        return tell_exception(frame, EXCEPTION_ADDRESS, out);
    memcpy(out, frame, 2);
    out[2] = (uint8_t)(2 * quantity);
    copy_swapped(out + 3, memory + 2 * first, quantity);
    return finish_frame(out, 3 + 2 * quantity);
}

static size_t write_register(const uint8_t *frame, size_t length, uint8_t *memory, uint8_t *out)
{
    unsigned at = word_at(frame + 2);
    if (length != 8)
        return tell_exception(frame, EXCEPTION_VALUE, out);
    if (!registers_end_by(at, 1, VARIABLES_END))
        return tell_exception(frame, EXCEPTION_ADDRESS, out);
    put_number(memory + 2 * at, 2, word_at(frame + 4));
    return tell_beginning(frame, 6, out);
}

static bool write_fits(const uint8_t *frame, size_t length)
{
    unsigned quantity = word_at(frame + 4);
    return 1 <= quantity && quantity <= MOST_WRITTEN && frame[6] == 2 * quantity && length == 9 + 2 * quantity;
}

static size_t write_registers(const uint8_t *frame, size_t length, uint8_t *memory, uint8_t *out)
{
    if (length < 9 || !write_fits(frame, length))
        return tell_exception(frame, EXCEPTION_VALUE, out);
    unsigned first = word_at(frame + 2), quantity = word_at(frame + 4);
    if (!registers_end_by(first, quantity, VARIABLES_END))
        return tell_exception(frame, EXCEPTION_ADDRESS, out);
    copy_swapped(memory + 2 * first, frame + 7, quantity);
    return tell_beginning(frame, 6, out);
}

static size_t mask_register(const uint8_t *frame, size_t length, uint8_t *memory, uint8_t *out)
{
    unsigned at = word_at(frame + 2);
    if (length != 10)
        return tell_exception(frame, EXCEPTION_VALUE, out);
    if (!registers_end_by(at, 1, VARIABLES_END))
        return tell_exception(frame, EXCEPTION_ADDRESS, out);
    const uint8_t values[] = {frame[7], frame[6]}, masks[] = {(uint8_t)~frame[5], (uint8_t)~frame[4]};
    store_masked(memory + 2 * at, values, masks, 2);
    return tell_beginning(frame, 8, out);
}

static size_t answer_frame(const uint8_t *frame, size_t length, uint8_t *memory, uint8_t *out)
{
    switch (frame[1]) {
    case READ_REGISTERS: return read_registers(frame, length, memory, out);
    case WRITE_REGISTER: return write_register(frame, length, memory, out);
    case WRITE_REGISTERS: return write_registers(frame, length, memory, out);
    case MASK_REGISTER: return mask_register(frame, length, memory, out);
    default: return tell_exception(frame, EXCEPTION_FUNCTION, out);
    }
}

#endif
