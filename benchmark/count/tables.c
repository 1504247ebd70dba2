/* Tables and the names they give. */
#include "count.h"

static uint8_t list[LOG_GATE_TABLE * LOG_GATE_MOST_TABLES];

void register_tables(void)
{
    log_gate_register(state, sizeof state, memory, sizeof memory, list, sizeof list);
}

/* Sixteen tables of one entry, each a variable of 2 bytes with a base type. */
void prepare_tables(void)
{
    memcpy(memory + 0x2100, "coil width", 11);
    memory[0x2110] = 0xE1;
    for (unsigned i = 0; i < LOG_GATE_MOST_TABLES; i++) {
        memcpy(memory + 0x2000 + 8 * i, (uint8_t[]){0x00, 0x21, 0x10, 0x21, (uint8_t)(16 + 2 * i), 0, 11, 0}, 8);
        memcpy(list + LOG_GATE_TABLE * i, (uint8_t[]){(uint8_t)(8 * i), 0x20, 8, 0}, LOG_GATE_TABLE);
    }
    log_gate_result refusal = log_gate_register(state, sizeof state, memory, sizeof memory, list, sizeof list);
    expect(refusal == LOG_GATE_TAKEN, "the tables are good");
}

void prepare_table(void)
{
    prepare_tables();
    form(&message, LOG_GATE_QUERY_TABLE, (uint8_t[]){15, 0}, 2);
}

void prepare_string(void)
{
    prepare_tables();
    form(&message, LOG_GATE_STRING_LENGTH, (uint8_t[]){0x00, 0x21}, 2);
}
