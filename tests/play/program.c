/* The gate's own program: what it collects, reports and registers. */
#include "play.h"

enum { MOST_TABLES = 40 };

void play_collect(char *text)
{
    size_t room = next_room(&text, MOST_UNLIMITED);
    fill_lent(room);
    print_taken("C", log_gate_collect(state, sizeof state, lent, room), room);
}

void play_report(char *text)
{
    printf("Y %u\n", log_gate_report(state, sizeof state, (uint8_t)next_number(&text, 16)));
}

/* The list as the call takes it: 2 bytes for each number, address and size in turn. */
static size_t next_tables(char *text)
{
    size_t length = 0;
    while (more_follows(text)) {
        unsigned long number = next_number(&text, 10);
        if (number > MOST_UNLIMITED || length == MOST_TABLES * LOG_GATE_TABLE)
            fail("a number or a list above what a line may give");
        bytes[length++] = (uint8_t)number;
        bytes[length++] = (uint8_t)(number >> 8);
    }
    if (length % LOG_GATE_TABLE != 0)
        fail("a table without its size");
    return length;
}

void play_register(char *text)
{
    size_t length = next_tables(text);
    printf("G %u\n", log_gate_register(state, sizeof state, memory, sizeof memory, bytes, length));
}
