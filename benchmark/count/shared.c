/* What the cases share: the gate, and messages to it, formed and given byte by byte. */
#include "count.h"

#include <stdio.h>
#include <stdlib.h>

uint8_t state[LOG_GATE_STATE], memory[LOG_GATE_MEMORY], answer[LOG_GATE_ANSWER_ROOM], data[LOG_GATE_DATA_ROOM];
struct message message, second;

/* All but the sum byte: the next start drops it, and only bytes are counted. */
void send_unfinished(void)
{
    give(&message, message.length - 1);
}

void send_whole(void)
{
    give(&message, message.length);
}

void send_both(void)
{
    give(&message, message.length);
    give(&second, second.length);
}

void expect(bool holds, const char *what)
{
    if (holds)
        return;
    fprintf(stderr, "count: not so: %s\n", what);
    exit(1);
}

void form(struct message *m, uint8_t command, const uint8_t *bytes, size_t length)
{
    m->length = log_gate_write_command(command, bytes, length, m->wire, sizeof m->wire).length;
    expect(give(m, m->length) > 0 && answer[1] <= LOG_GATE_RECORDER_STOPPED, "the gate takes a message");
}
