/* The gate at its service port, its ticks, and its memory. */
#include "play.h"

#include <string.h>

enum { MOST_BLOCK_ROOM = 2000 };

uint8_t state[LOG_GATE_STATE], memory[LOG_GATE_MEMORY];
unsigned long given;

void play_give(char *text)
{
    uint8_t answer[LOG_GATE_ANSWER_ROOM];
    size_t count = next_bytes(text);
    for (size_t i = 0; i < count; i++, given++) {
        log_gate_taken taken =
            log_gate_byte(state, sizeof state, bytes[i], memory, sizeof memory, answer, sizeof answer);
        if (taken.refusal != LOG_GATE_TAKEN)
            fail("the gate refuses a byte");
        if (taken.length > 0) {
            printf("A %lu", given);
            print_bytes(answer, taken.length);
        }
    }
}

/* Bytes that are not taken are not given again, and count as given. */
void play_give_block(char *text)
{
    size_t room = next_room(&text, MOST_BLOCK_ROOM), count = next_bytes(text);
    fill_lent(room);
    log_gate_block_taken came = log_gate_block(state, sizeof state, bytes, count, memory, sizeof memory, lent, room);
    given += count;
    printf("K %u %zu %zu", came.refusal, came.taken, came.written);
    print_bytes(lent, room);
}

void play_tick(char *text)
{
    for (unsigned long n = next_number(&text, 10); n > 0; n--)
        if (log_gate_tick(state, sizeof state, memory, sizeof memory) != LOG_GATE_TAKEN)
            fail("the gate refuses a tick");
}

static void look_at_range(size_t address, size_t length)
{
    if (address > sizeof memory || length > sizeof memory - address)
        fail("a range outside the memory");
}

void play_poke(char *text)
{
    size_t address = next_number(&text, 10), length = next_bytes(text);
    look_at_range(address, length);
    memcpy(memory + address, bytes, length);
}

void play_show(char *text)
{
    size_t address = next_number(&text, 10), length = next_number(&text, 10);
    look_at_range(address, length);
    printf("M %zu", address);
    print_bytes(memory + address, length);
}
