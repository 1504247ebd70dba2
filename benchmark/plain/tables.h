/* Tables of names: a list is looked at once, when it is registered; strings are measured. */
#ifndef PLAIN_TABLES_H
#define PLAIN_TABLES_H

#include <string.h>

#include "memory.h"
#include "state.h"

/* An entry is name, type, address and info, 2 bytes each. */
enum { ENTRY_TYPE = 2, ENTRY_INFO = 6, ENTRY_SIZE = 8, TABLE_FLAGS = 2 };

/* By the code that, with a zero behind it, is a base type's string; 0 where none is. */
static const uint8_t base_sizes[256] = {
    [0xE0] = 1, [0xE1] = 2, [0xE2] = 4, [0xE3] = 8, [0xE5] = 2, [0xE6] = 4, [0xF0] = 1,
    [0xF1] = 2, [0xF2] = 4, [0xF3] = 8, [0xF5] = 2, [0xF6] = 4, [0xFA] = 4, [0xFB] = 8,
};

static bool entry_right(const uint8_t *entry, const uint8_t *memory)
{
    uint32_t type = number_at(entry + ENTRY_TYPE, 2);
    if (type >= MEMORY_END)
        return false;
    if (type + 1 == MEMORY_END || memory[type + 1] != 0 || base_sizes[memory[type]] == 0)
        return true;
    return number_at(entry + ENTRY_INFO, 2) / 4 == base_sizes[memory[type]];
}

static bool table_right(uint32_t address, uint32_t size, const uint8_t *memory)
{
    if (address < VARIABLES_END || !ends_by(address, size, CALIBRATION_END))
        return false;
    if (size == 0 || size % ENTRY_SIZE != 0)
        return false;
    for (uint32_t at = 0; at < size; at += ENTRY_SIZE)
        if (!entry_right(memory + address + at, memory))
            return false;
    return true;
}

/* Address and size of each table, 2 bytes each. */
static bool list_right(const uint8_t *list, size_t length, const uint8_t *memory)
{
    if (length % LOG_GATE_TABLE != 0 || length / LOG_GATE_TABLE > MOST_TABLES)
        return false;
    for (size_t i = 0; i < length; i += LOG_GATE_TABLE)
        if (!table_right(number_at(list + i, 2), number_at(list + i + 2, 2), memory))
            return false;
    return true;
}

static void register_tables(struct tables *t, const uint8_t *list, size_t length)
{
    t->count = (uint8_t)(length / LOG_GATE_TABLE);
    memcpy(t->list, list, length);
}

/* Flags, size and address of a table; zeros for an index beyond the last. */
static void put_table(const struct tables *t, uint32_t index, uint8_t *to)
{
    memset(to, 0, 6);
    if (index >= t->count)
        return;
    put_number(to, 2, TABLE_FLAGS);
    put_number(to + 2, 2, t->list[index].size);
    put_number(to + 4, 2, t->list[index].address);
}

/* How many bytes stand before the next zero; the status says where none is, or where the address is none. */
static uint8_t measure_string(const uint8_t *memory, uint32_t address, uint32_t *length)
{
    if (address >= MEMORY_END)
        return LOG_GATE_RANGE_WRONG;
    const uint8_t *zero = memchr(memory + address, 0, MEMORY_END - address);
    if (zero == NULL)
        return LOG_GATE_SIZE_WRONG;
    *length = (uint32_t)(zero - (memory + address));
    return LOG_GATE_DONE;
}

#endif
