/* The answers about names: what 0x11 tells of the tables, and the length of a string. */
#include "thrown.h"

#include <stdio.h>

static uint64_t told;

/* What 0x11 is to answer: flags, size and address as the list has them, or zeros. */
static uint8_t table_due(const uint8_t *before, uint8_t *data)
{
    size_t index = number_at(before + BODY);
    const uint8_t *table = before + LIST + LOG_GATE_TABLE * index;
    if (before[3] != 2)
        return LOG_GATE_LAYOUT_WRONG;
    if (index < before[TABLES]) {
        told++;
        data[0] = 2;
        memcpy(data + 2, table + 2, 2);
        memcpy(data + 4, table, 2);
    }
    return LOG_GATE_DONE;
}

/* What 0xD4 and 0xE6 are to answer: how many bytes stand before the next zero. */
static uint8_t string_due(const uint8_t *before, uint8_t *data)
{
    size_t address = number_at(before + BODY), length = 0;
    if (address >= LOG_GATE_MEMORY || (before[3] == 4 && number_at(before + BODY + 2) > 0))
        return LOG_GATE_RANGE_WRONG;
    while (address + length < LOG_GATE_MEMORY && lent_bytes(&mem)[address + length] != 0)
        length++;
    put_number(data, length);
    return address + length < LOG_GATE_MEMORY ? LOG_GATE_DONE : LOG_GATE_SIZE_WRONG;
}

/* The whole answer to a message about names with a right sum; no message changes the tables. */
void look_at_names(const uint8_t *answer, size_t length)
{
    const uint8_t *before = state.kept + state.start;
    uint8_t data[6] = {0}, due[LOG_GATE_ANSWER_ROOM], command = before[2];
    int is_table = command == LOG_GATE_QUERY_TABLE;
    expect(memcmp(lent_bytes(&state) + TABLES, before + TABLES, LOG_GATE_STATE - TABLES) == 0, "a message leaves other tables");
    if (!is_table && command != LOG_GATE_STRING_LENGTH && command != LOG_GATE_STRING_LENGTH_EX)
        return;
    if (answer[1] == LOG_GATE_SUM_WRONG || before[3] > 64)
        return;
    uint8_t status = is_table ? table_due(before, data) : string_due(before, data);
    size_t count = status != LOG_GATE_DONE ? 0 : is_table ? 6 : 2;
    log_gate_taken written = log_gate_write_answer(status, data, count, due, sizeof due);
    expect(written.length == length && memcmp(due, answer, length) == 0, "another answer about names");
}

void tell_names(void)
{
    printf("tables told %llu\n", (unsigned long long)told);
}

void require_names(void)
{
    expect(told > 0, "no table was ever told");
}
