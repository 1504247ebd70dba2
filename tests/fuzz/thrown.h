/* What is thrown: a live gate and a live reader that take random traffic, and states made from them or from nothing. */
#ifndef THROWN_H
#define THROWN_H

#include "../layout.h"
#include "counts.h"
#include "lent.h"

extern uint8_t live[LOG_GATE_STATE], live_reader[LOG_GATE_READER];
extern struct lent state, mem, out, block;

/* Where the memory's parts end and begin. */
enum { VARIABLES_END = 8192, BUFFER = 12288 };

/* Mostly the length that is right, sometimes another. */
size_t some_length(size_t right, size_t more);

/* Returns whether it is the live state itself. */
int lend_state(struct lent *l, const uint8_t *sound, size_t size);

/* The memory stays for a while: what a call left there is there for the next. Now and then another length of it is lent. */
void lend_memory(void);
void lend_room(size_t length);

/* What the order of refusals begins with: a state; a state and a memory; both and room for an answer. */
uint8_t state_refusal(void);
uint8_t tick_refusal(void);
uint8_t byte_refusal(void);

/* A taken call left the state within its bounds; the live one goes on with it. */
void keep_live(int is_live);

/* What a taken call left from..to in the memory is what the next call finds. */
void keep_memory(size_t from, size_t to);

/* The functions that subjects.h describes. */
#define THROWN(weight, name) void throw_##name(void);
#define ANSWERED(name) void look_at_##name(const uint8_t *answer, size_t length);
#define SWEPT(name) void sweep_##name(void);
#define COUNTED(name) void tell_##name(void), require_##name(void);
#include "subjects.h"

/* Numbers of 2 bytes. */
size_t number_at(const uint8_t *bytes);
void put_number(uint8_t *bytes, size_t number);

#endif
