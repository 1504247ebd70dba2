/* Bytes of messages and commands that read, write and describe. */
#include "count.h"

void prepare_long(void)
{
    uint8_t bytes[64] = {61, 64, 0};
    form(&message, LOG_GATE_WRITE_BYTES, bytes, 64);
}

void prepare_long_set_up(void)
{
    set_up_all();
    prepare_long();
}

void prepare_long_tables(void)
{
    prepare_tables();
    prepare_long();
}

void prepare_read(void)
{
    form(&message, LOG_GATE_READ_1, (uint8_t[]){16, 0}, 2);
}

void prepare_read_set_up(void)
{
    set_up_all();
    prepare_read();
}

void prepare_describe(void)
{
    form(&message, LOG_GATE_DESCRIBE_BRIEFLY, data, 0);
}

void prepare_masked(void)
{
    form(&message, LOG_GATE_WRITE_1_MASKED, (uint8_t[]){16, 0, 0xF0, 0x3C}, 4);
}

void prepare_block_read(void)
{
    form(&message, LOG_GATE_READ_BYTES, (uint8_t[]){64, 64, 0}, 3);
}

void prepare_block_write(void)
{
    uint8_t bytes[62] = {59, 64, 0};
    form(&message, LOG_GATE_WRITE_BYTES, bytes, 62);
}
