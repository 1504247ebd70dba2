/* Which lists of tables can be registered: their sizes and places, how many, and what types their entries may have. */
#include "tables.h"

/* Lists over a memory of zeros, whose entries are good: their type is an empty string. */
static const struct {
    const char *list;
    log_gate_result result;
} lists[] = {
    {"", LOG_GATE_TAKEN},
    {"00 20 08 00", LOG_GATE_TAKEN},
    {"00 20 00 10", LOG_GATE_TAKEN}, /* the whole area */
    {"F8 2F 08 00", LOG_GATE_TAKEN},
    {"F7 2F 08 00 01 20 F0 0F", LOG_GATE_TAKEN},
    {"00 20 08 00 00 20 08 00", LOG_GATE_TAKEN},
    {"00 20 08", LOG_GATE_LIST_REFUSED}, /* not whole pairs */
    {"00 20", LOG_GATE_LIST_REFUSED},
    {"00 20 08 00 00", LOG_GATE_LIST_REFUSED},
    {"00 20 08 00 08 20", LOG_GATE_LIST_REFUSED},
    {"00 20 00 00", LOG_GATE_LIST_REFUSED}, /* not whole entries */
    {"00 20 04 00", LOG_GATE_LIST_REFUSED},
    {"00 20 07 00", LOG_GATE_LIST_REFUSED},
    {"00 20 09 00", LOG_GATE_LIST_REFUSED},
    {"00 20 0C 00", LOG_GATE_LIST_REFUSED},
    {"F8 1F 08 00", LOG_GATE_LIST_REFUSED}, /* not inside the area */
    {"FF 1F 08 00", LOG_GATE_LIST_REFUSED},
    {"F9 2F 08 00", LOG_GATE_LIST_REFUSED},
    {"00 30 08 00", LOG_GATE_LIST_REFUSED},
    {"00 00 08 00", LOG_GATE_LIST_REFUSED},
    {"00 40 08 00", LOG_GATE_LIST_REFUSED},
    {"F8 1F 00 10", LOG_GATE_LIST_REFUSED},
    {"00 20 08 10", LOG_GATE_LIST_REFUSED},
    {"00 20 F8 FF", LOG_GATE_LIST_REFUSED},
    {"00 20 00 E0", LOG_GATE_LIST_REFUSED},
    {"F8 FF 08 00", LOG_GATE_LIST_REFUSED},
    {"00 20 08 00 00 20 09 00", LOG_GATE_LIST_REFUSED}, /* the second alone is bad, and the first */
    {"00 20 09 00 00 20 08 00", LOG_GATE_LIST_REFUSED},
};

static void test_places(void)
{
    for (size_t i = 0; i < sizeof lists / sizeof lists[0]; i++) {
        reset();
        EXPECT(register_list("08 20 08 00") == LOG_GATE_TAKEN && status_of(LOG_GATE_SEND_COMMAND, "01") == LOG_GATE_DONE);
        struct gate kept = gate;
        log_gate_result result = register_list(lists[i].list);
        expect_row(result == lists[i].result, "the list '%s' gives %u, not %u", lists[i].list, result, lists[i].result);
        EXPECT((memcmp(&gate, &kept, sizeof gate) == 0) == (lists[i].result != LOG_GATE_TAKEN));
        EXPECT(memcmp(gate.memory, kept.memory, sizeof gate.memory) == 0);
    }
}

static void test_most_tables(void)
{
    uint8_t list[LOG_GATE_TABLE * (LOG_GATE_MOST_TABLES + 1)];
    for (size_t i = 0; i < sizeof list; i += LOG_GATE_TABLE)
        memcpy(list + i, "\x00\x20\x08\x00", LOG_GATE_TABLE);
    put_number(list + LOG_GATE_TABLE * 15 + 2, 16);
    reset();
    EXPECT(log_gate_register(gate.state, sizeof gate.state, gate.memory, sizeof gate.memory, list, sizeof list) ==
           LOG_GATE_LIST_REFUSED);
    EXPECT(log_gate_register(gate.state, sizeof gate.state, gate.memory, sizeof gate.memory, list,
                             sizeof list - LOG_GATE_TABLE) == LOG_GATE_TAKEN);
    expect_answer("2B 11 02 0F 00 DE", "2B 00 02 00 10 00 00 20 CE");
    expect_answer("2B 11 02 10 00 DD", "2B 00 00 00 00 00 00 00 00");
}

/* One entry with this string as its type and this info. */
static log_gate_result register_entry(const char *type, unsigned address, unsigned info)
{
    reset();
    bytes_of(type, gate.memory + address);
    put_entry(8192, address, info);
    return register_list("00 20 08 00");
}

static void test_base_types(void)
{
    static const uint8_t sizes[256] = {[0xE0] = 1, [0xF0] = 1, [0xE1] = 2, [0xF1] = 2, [0xE5] = 2, [0xF5] = 2, [0xE2] = 4,
                                       [0xF2] = 4, [0xE6] = 4, [0xF6] = 4, [0xFA] = 4, [0xE3] = 8, [0xF3] = 8, [0xFB] = 8};
    for (unsigned code = 0; code < 256; code++)
        for (unsigned info = 0; info < 40; info++) {
            char type[8];
            sprintf(type, "%02X 00", code);
            bool good = sizes[code] == 0 || info / 4 == sizes[code];
            EXPECT(register_entry(type, 100, info) == (good ? LOG_GATE_TAKEN : LOG_GATE_LIST_REFUSED));
        }
}

/* Which strings are base types, and which addresses are a type's. */
static void test_types(void)
{
    EXPECT(register_entry("E0 41 00", 100, 77) == LOG_GATE_TAKEN);
    EXPECT(register_entry("E0 E1 00", 100, 77) == LOG_GATE_TAKEN);
    EXPECT(register_entry("E0", 16383, 77) == LOG_GATE_TAKEN);
    EXPECT(register_entry("E0 00", 16382, 77) == LOG_GATE_LIST_REFUSED);
    EXPECT(register_entry("E0 00", 16382, 7) == LOG_GATE_TAKEN);
    reset();
    put_entry(8192, 16384, 77);
    EXPECT(register_list("00 20 08 00") == LOG_GATE_LIST_REFUSED);
    put_entry(8192, 16383, 77);
    put_entry(8200, 0xFFFF, 77);
    EXPECT(register_list("00 20 08 00") == LOG_GATE_TAKEN);
    EXPECT(register_list("00 20 10 00") == LOG_GATE_LIST_REFUSED && register_list("08 20 10 00") == LOG_GATE_LIST_REFUSED);
    EXPECT(register_list("00 20 08 00 08 20 08 00") == LOG_GATE_LIST_REFUSED);
}

void test_lists(void)
{
    test_places();
    test_most_tables();
    test_base_types();
    test_types();
}
