/* One table of the map's variables, and behind it each variable's type and name. */
#include "names.h"

#include "map.h"
#include "memory.h"

#include <string.h>

struct variable {
    const char *name;
    uint32_t address, bytes, type, access;
};

#define GATE_VARIABLE(symbol, address, bytes, type, access, name, what) {name, address, bytes, type, access},
static const struct variable variables[] = {GATE_MAP(GATE_VARIABLE)};
#undef GATE_VARIABLE

/* A base type's string is its code and a zero. */
enum { ENTRY_SIZE = 8, TYPE_SIZE = 2 };

/* The calibration area. Its last two bytes are left free. */
enum { CALIBRATION = 8192, TABLES_END = 12286 };

enum { VARIABLES = sizeof variables / sizeof variables[0], TABLE_SIZE = VARIABLES * ENTRY_SIZE };

#define GATE_STRINGS(symbol, address, bytes, type, access, name, what) +TYPE_SIZE + sizeof name
_Static_assert(CALIBRATION + TABLE_SIZE GATE_MAP(GATE_STRINGS) <= TABLES_END, "the table and its strings have room");
#undef GATE_STRINGS

static void put_entry(uint8_t *entry, uint32_t name, uint32_t type, const struct variable *v)
{
    put_number(entry, 2, name);
    put_number(entry + 2, 2, type);
    put_number(entry + 4, 2, v->address);
    put_number(entry + 6, 2, v->bytes * 4 + v->access);
}

void names_begin(uint8_t *memory, uint8_t list[LOG_GATE_TABLE])
{
    uint32_t entry = CALIBRATION, type = CALIBRATION + TABLE_SIZE;
    for (const struct variable *v = variables; v < variables + VARIABLES; v++) {
        uint32_t name = type + TYPE_SIZE, name_size = (uint32_t)strlen(v->name) + 1;
        put_number(memory + type, TYPE_SIZE, v->type);
        memcpy(memory + name, v->name, name_size);
        put_entry(memory + entry, name, type, v);
        entry += ENTRY_SIZE;
        type = name + name_size;
    }
    put_number(list, 2, CALIBRATION);
    put_number(list + 2, 2, TABLE_SIZE);
}
