/* Blocks, as a receiver with a buffer hands them over. */
#include "count.h"

/* The messages of these cases fill whole blocks, but for their sum byte. */
enum { BLOCK = 64 };

void send_blocks(void)
{
    for (size_t at = 0; at + BLOCK <= message.length; at += BLOCK)
        log_gate_block(state, sizeof state, message.wire + at, BLOCK, memory, sizeof memory, answer, sizeof answer);
}

void send_in_one(void)
{
    log_gate_block(state, sizeof state, message.wire, message.length, memory, sizeof memory, answer, sizeof answer);
}

/* Start, command, length and 61 data: one block. */
void prepare_blocks(void)
{
    uint8_t bytes[61] = {58, 64, 0};
    form(&message, LOG_GATE_WRITE_BYTES, bytes, 61);
}

void prepare_blocks_set_up(void)
{
    set_up_all();
    prepare_blocks();
}

/* Start, command, length, size and address, and 61 times 2B 2B: two blocks. */
void prepare_blocks_doubled(void)
{
    uint8_t bytes[64] = {61, 64, 0};
    memset(bytes + 3, 0x2B, 61);
    form(&message, LOG_GATE_WRITE_BYTES, bytes, 64);
}

void prepare_noise(void)
{
    for (size_t i = 0; i < BLOCK; i++)
        message.wire[i] = (uint8_t)(0x80 + i);
    message.length = BLOCK;
    expect(give(&message, message.length) == 0, "noise gets no answer");
}
