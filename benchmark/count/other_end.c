/* The writers and the answer reader. */
#include "count.h"

static uint8_t reader[LOG_GATE_READER];

void write_command(void)
{
    log_gate_write_command(LOG_GATE_WRITE_BYTES, memory, 64, message.wire, sizeof message.wire);
}

void write_answer(void)
{
    log_gate_write_answer(LOG_GATE_DONE, memory, 64, answer, sizeof answer);
}

void read_answer(void)
{
    for (size_t i = 0; i < 67; i++)
        log_gate_reader_byte(reader, sizeof reader, answer[i], data, sizeof data);
}

void prepare_answer(void)
{
    write_answer();
    log_gate_reader_begin(reader, sizeof reader, 64);
}
