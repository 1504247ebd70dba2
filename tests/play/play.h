/* What the lines of a script share: the gate's state and memory, the answer reader, what is read of a line, and what is printed. */
#ifndef PLAY_H
#define PLAY_H

#include "../../include/log_gate.h"

#include <stdio.h>

enum { MOST_LINE = 16384, MOST_ROOM = 600, MOST_UNLIMITED = 65535 };

extern uint8_t state[LOG_GATE_STATE], memory[LOG_GATE_MEMORY], reader[LOG_GATE_READER];

/* The bytes that a line gave, and a buffer that is lent. */
extern uint8_t bytes[MOST_LINE], lent[MOST_UNLIMITED];

/* How many bytes went to the gate's port. */
extern unsigned long given;

#define LINE(word, name, concerns_memory) void play_##name(char *text);
#include "lines.h"

/* A script cannot be played further. */
void fail(const char *what);

/* ---- what is read of a line, from where `text` stands */

unsigned long next_number(char **text, int base);
int more_follows(const char *text);
size_t next_bytes(char *text);
size_t next_room(char **text, size_t most);

/* ---- what is lent and printed */

void fill_lent(size_t room);
void print_bytes(const uint8_t *shown, size_t length);

/* What a call gave, and the whole lent buffer. */
void print_taken(const char *word, log_gate_taken taken, size_t room);

#endif
