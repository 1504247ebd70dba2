/* Registering: lists that are good, and lists with something changed, over entries that the gate's own program wrote. */
#include "thrown.h"

#include <stdio.h>

enum { CALIBRATION = VARIABLES_END, ENTRY = 8, TYPES = VARIABLES_END - 48, THROWN_TABLES = 20 };

static uint64_t registered;

static const struct {
    uint8_t code, size;
} base_types[] = {{0xE0, 1}, {0xF0, 1}, {0xE1, 2}, {0xF1, 2}, {0xE5, 2}, {0xF5, 2}, {0xE2, 4},
                  {0xF2, 4}, {0xE6, 4}, {0xF6, 4}, {0xFA, 4}, {0xE3, 8}, {0xF3, 8}, {0xFB, 8}};

enum { BASE_TYPES = sizeof base_types / sizeof base_types[0] };

static void write_memory(size_t at, const uint8_t *bytes, size_t length)
{
    memcpy(lent_bytes(&mem) + at, bytes, length);
    memcpy(mem.kept + mem.start + at, bytes, length);
}

/* A good entry: a base type with its size, or a string of one byte and no zero behind it with any. */
static void write_entry(size_t at)
{
    uint8_t entry[ENTRY];
    size_t which = below(BASE_TYPES), type = TYPES + 2 * which;
    random_fill(entry, sizeof entry);
    write_memory(type, (const uint8_t[]){base_types[which].code, 0}, 2);
    if (one_in(8))
        type = LOG_GATE_MEMORY - 1;
    else
        put_number(entry + 6, 4u * base_types[which].size + below(4));
    put_number(entry + 2, type);
    write_memory(at, entry, sizeof entry);
}

/*
 * Some tables of good entries, one behind the other, from where they may begin or up to where they must end, or a byte beside it;
 * how long the list of them is.
 */
static size_t write_tables(uint8_t *list)
{
    size_t tables = one_in(2) ? below(THROWN_TABLES) : below(4), size = ENTRY * (1 + below(3));
    size_t at = one_in(2) ? CALIBRATION : BUFFER - tables * size;
    if (one_in(4))
        at = at + below(3) - 1;
    for (size_t i = 0; i < tables; i++) {
        put_number(list + LOG_GATE_TABLE * i, at);
        put_number(list + LOG_GATE_TABLE * i + 2, size);
        for (size_t end = at + size; at < end; at += ENTRY)
            write_entry(at);
    }
    return LOG_GATE_TABLE * tables;
}

/* Something of an entry, of its type or of the list changed, which may make the list bad; how long it is then. */
static size_t change_list(uint8_t *list, size_t length)
{
    static const uint16_t edges[] = {0, 7, 9, 8191, 12288, 16384, 65535};
    size_t number = edges[below(sizeof edges / sizeof edges[0])], at = below((uint32_t)length / 2) * 2;
    uint8_t bytes[2];
    put_number(bytes, one_in(2) ? number : random_number());
    switch (below(4)) {
    case 0: return length - 1 - below(3);
    case 1: memcpy(list + at, bytes, 2); break;
    case 2: write_memory(TYPES + below(2 * BASE_TYPES), bytes, 1); break;
    default: write_memory(number_at(list + at / 4 * 4) + 2 * below(4), bytes, 2);
    }
    return length;
}

static int entry_good(const uint8_t *entry)
{
    const uint8_t *memory = lent_bytes(&mem);
    size_t type = number_at(entry + 2);
    for (size_t i = 0; i < BASE_TYPES && type < LOG_GATE_MEMORY - 1; i++)
        if (memory[type] == base_types[i].code && memory[type + 1] == 0)
            return number_at(entry + 6) / 4 == base_types[i].size;
    return type < LOG_GATE_MEMORY;
}

static int list_good(const uint8_t *list, size_t length)
{
    if (length % LOG_GATE_TABLE != 0 || length > LOG_GATE_TABLE * LOG_GATE_MOST_TABLES)
        return 0;
    for (size_t i = 0; i < length; i += LOG_GATE_TABLE) {
        size_t address = number_at(list + i), size = number_at(list + i + 2);
        if (address < CALIBRATION || address + size > BUFFER || size == 0 || size % ENTRY != 0)
            return 0;
        for (size_t at = address; at < address + size; at += ENTRY)
            if (!entry_good(lent_bytes(&mem) + at))
                return 0;
    }
    return 1;
}

/* What the state holds does not matter. */
static uint8_t register_refusal(void)
{
    if (state.length < LOG_GATE_STATE)
        return LOG_GATE_STATE_REFUSED;
    if (mem.length != LOG_GATE_MEMORY)
        return LOG_GATE_MEMORY_REFUSED;
    return list_good(lent_bytes(&out), out.length) ? LOG_GATE_TAKEN : LOG_GATE_LIST_REFUSED;
}

void throw_register(void)
{
    uint8_t list[LOG_GATE_TABLE * THROWN_TABLES], fresh[LOG_GATE_STATE] = {0};
    int is_live = lend_state(&state, live, sizeof live);
    lend_memory();
    size_t length = write_tables(list);
    if (length > 0 && one_in(2))
        length = change_list(list, length);
    lend(&out, list, length, length);
    uint8_t due = register_refusal();
    uint8_t refusal = log_gate_register(lent_bytes(&state), state.length, lent_bytes(&mem), mem.length, lent_bytes(&out), length);
    count(CALL_register, refusal);
    expect(refusal == due, "register: another refusal");
    expect(kept(&mem) && kept(&out), "register: changes the memory or the list");
    expect(kept_but(&state, 0, due ? 0 : LOG_GATE_STATE), "register: a byte that is not its own");
    if (due != LOG_GATE_TAKEN)
        return;
    registered += length > 0;
    fresh[TABLES] = (uint8_t)(length / LOG_GATE_TABLE);
    memcpy(fresh + LIST, list, length);
    expect(memcmp(lent_bytes(&state), fresh, sizeof fresh) == 0, "register: more than a reset with these tables");
    keep_live(is_live && one_in(100));
}

/* The live state with every count of tables, over a list that may be anything. */
void sweep_tables(void)
{
    uint8_t swept[LOG_GATE_STATE];
    memcpy(swept, live, sizeof swept);
    random_fill(swept + LIST, sizeof swept - LIST);
    for (unsigned tables = 0; tables < 256; tables++) {
        swept[TABLES] = (uint8_t)tables;
        uint8_t refusal = log_gate_check(swept, sizeof swept);
        count(CALL_check, refusal);
        expect((refusal == LOG_GATE_TAKEN) == (tables <= LOG_GATE_MOST_TABLES), "check: other bounds of the tables' part");
    }
}

void tell_tables(void)
{
    printf("lists with tables registered %llu\n", (unsigned long long)registered);
}

void require_tables(void)
{
    expect(registered > 0, "no table was ever registered");
}
