/*
 * A line without a port, for the tool that lists names: at its other end is a target with tables such as the virtual gate has none
 * of. Instead of a path it takes which tables.
 */
#include "../gate/memory.h"
#include "../gate/tools/line.h"

#include <string.h>

/* Tables stand from 8,192 on, strings from 9,216 on, in the order in which they are put. */
enum { TABLES = 8192, STRINGS = 9216, ENTRY_SIZE = 8 };

static uint8_t state[LOG_GATE_STATE], memory[LOG_GATE_MEMORY], list[LOG_GATE_TABLE * LOG_GATE_MOST_TABLES];
static uint32_t tables, entries, strings = STRINGS;
static int has_names; /* or it is a gate that does not serve 0x11 */

static uint32_t put_string(const char *string)
{
    uint32_t address = strings;
    strcpy((char *)memory + address, string);
    strings += (uint32_t)strlen(string) + 1;
    return address;
}

static void begin_table(void)
{
    put_number(list + LOG_GATE_TABLE * tables, 2, TABLES + ENTRY_SIZE * entries);
    tables++;
}

static void put_entry(uint32_t name, const char *type, uint32_t address, uint32_t info)
{
    uint8_t *entry = memory + TABLES + ENTRY_SIZE * entries++, *size = list + LOG_GATE_TABLE * (tables - 1) + 2;
    put_number(entry, 2, name);
    put_number(entry + 2, 2, put_string(type));
    put_number(entry + 4, 2, address);
    put_number(entry + 6, 2, info);
    put_number(size, 2, number_at(size, 2) + ENTRY_SIZE);
}

static void put_variable(const char *name, const char *type, uint32_t address, uint32_t info)
{
    put_entry(put_string(name), type, address, info);
}

/* ---- the tables */

static void put_base_types(void)
{
    static const struct {
        const char *type;
        uint32_t size;
    } base[] = {{"\xE0", 1}, {"\xE1", 2}, {"\xE2", 4}, {"\xE3", 8}, {"\xE5", 2}, {"\xE6", 4}, {"\xF0", 1},
                {"\xF1", 2}, {"\xF2", 4}, {"\xF3", 8}, {"\xF5", 2}, {"\xF6", 4}, {"\xFA", 4}, {"\xFB", 8}};
    begin_table();
    for (uint32_t i = 0; i < sizeof base / sizeof base[0]; i++)
        put_variable("base", base[i].type, 8 * i, base[i].size * 4 + (i % 2 ? 1 : 3));
}

/* A name of so many characters, from a to j and again. */
static void put_long(uint32_t length)
{
    char name[256] = "";
    for (uint32_t i = 0; i < length; i++)
        name[i] = (char)('a' + i % 10);
    put_variable(name, "\xE0", length, 1 * 4 + 3);
}

static void put_strings(void)
{
    begin_table();
    for (uint32_t i = 0; i < 5; i++)
        put_long((const uint32_t[]){0, 63, 64, 65, 129}[i]);
    put_variable("++", "\xE0", 0x2B2B, 1 * 4 + 3);
    put_variable("\x1B[2J\xE4", "saw_type", 65535, 0xFFFF);
    put_variable("special", "\xEC", 0, 1);
}

/* A structure and its members are no variables; a variable of it is one. */
static void put_structure(void)
{
    begin_table();
    put_variable("saw_type", "", 0, 3 * 4);
    put_variable("speed", "\xE1", 0, 2 * 4 + 2);
    put_variable("blade", "\xE0", 2, 1 * 4 + 2);
    put_variable("saw", "saw_type", 100, 3 * 4 + 1);
}

/* A name that begins nowhere; the variables before it are good. */
static void put_nowhere(void)
{
    begin_table();
    put_variable("here", "\xE0", 16, 1 * 4 + 1);
    put_entry(LOG_GATE_MEMORY, "\xE0", 17, 1 * 4 + 1);
}

/* ---- the line */

int line_open(struct line *l, const char *path)
{
    (void)l;
    if (strcmp(path, "tables") == 0) {
        put_base_types();
        put_strings();
        put_structure();
    } else if (strcmp(path, "nowhere") == 0) {
        put_nowhere();
    }
    has_names = strcmp(path, "old") != 0;
    return log_gate_register(state, sizeof state, memory, sizeof memory, list, LOG_GATE_TABLE * tables) == LOG_GATE_TAKEN;
}

static size_t answer_to(const uint8_t *wire, size_t length, uint8_t *answer)
{
    size_t answered = 0;
    for (size_t i = 0; i < length; i++)
        answered = log_gate_byte(state, sizeof state, wire[i], memory, sizeof memory, answer, LOG_GATE_ANSWER_ROOM).length;
    return answered;
}

int line_ask(struct line *l, uint8_t command, const uint8_t *body, size_t length, size_t expected)
{
    uint8_t wire[LOG_GATE_COMMAND_ROOM], answer[LOG_GATE_ANSWER_ROOM], reader[LOG_GATE_READER];
    if (command == LOG_GATE_QUERY_TABLE && !has_names)
        return LOG_GATE_NOT_SERVED;
    size_t sent = log_gate_write_command(command, body, length, wire, sizeof wire).length;
    size_t answered = answer_to(wire, sent, answer);
    log_gate_read read = {0};
    log_gate_reader_begin(reader, sizeof reader, expected);
    for (size_t i = 0; i < answered; i++)
        read = log_gate_reader_byte(reader, sizeof reader, answer[i], l->data, sizeof l->data);
    return read.whole ? read.status : -1;
}
