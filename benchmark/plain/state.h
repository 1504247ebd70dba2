/* What a target and an answer reader hold, laid over the lent blocks: packed, little-endian, without alignment. */
#ifndef PLAIN_STATE_H
#define PLAIN_STATE_H

#include "../../include/log_gate.h"

/* A block is the caller's bytes, at any address; both attributes say so to the compiler. */
#define BLOCK __attribute__((packed, may_alias))

enum { MOST_VARIABLES = 8, MOST_DATA = 64, MOST_TABLES = LOG_GATE_MOST_TABLES };

enum { IDLE, LENGTH_NEXT, DATA_NEXT, SUM_NEXT };

struct BLOCK receiver {
    uint8_t waiting; /* a 0x2B waits for its follower */
    uint8_t phase;
    uint8_t command;
    uint8_t length;
    uint8_t have;
    uint8_t sum;
};

struct BLOCK variable {
    uint8_t size;
    uint32_t address;
};

/* Of the list, the first `count` are looked at. */
struct BLOCK variables {
    uint8_t count;
    struct variable list[MOST_VARIABLES];
};

/* What a setup fixes, in the order of its data part. */
struct BLOCK plan {
    uint8_t mode;
    uint16_t samples;
    uint16_t post_trigger;
    uint16_t divider;
    uint32_t address;
    uint8_t size;
    uint8_t sign;
    uint32_t threshold;
    struct variables variables;
};

/* How far the trigger has come. */
enum { UNPRIMED, PREVIOUS, TRIGGERED };

/* What changes while the recorder runs. */
struct BLOCK run {
    uint8_t running;
    uint8_t full; /* 'samples' sets are taken */
    uint8_t watch;
    uint16_t wait;  /* ticks that pass before the next set */
    uint16_t place; /* that would be written next */
    uint32_t value; /* of the trigger variable at the previous set, or the sets that are left */
};

struct BLOCK recorder {
    uint8_t ready;
    struct plan plan;
    struct run run;
};

enum { NO_COMMAND, COMMAND_WAITS, COMMAND_COLLECTED, COMMAND_ENDED };

/* Count and bytes are looked at while the command waits, the result once it is in. */
struct BLOCK application {
    uint8_t phase;
    uint8_t count;
    uint8_t result;
    uint8_t command[MOST_DATA];
};

struct BLOCK table {
    uint16_t address;
    uint16_t size;
};

/* As they were registered. Of the list, the first `count` are looked at. */
struct BLOCK tables {
    uint8_t count;
    struct table list[MOST_TABLES];
};

struct BLOCK target {
    struct receiver receiver;
    uint8_t body[MOST_DATA];
    struct variables scope;
    struct recorder recorder;
    struct application application;
    struct tables tables;
};

enum { READER_IDLE, READER_DATA, READER_SUM };

struct BLOCK reader {
    uint8_t waiting;
    uint8_t phase;
    uint8_t status;
    uint8_t expected;
    uint8_t have;
    uint8_t sum;
    uint8_t body[MOST_DATA];
};

_Static_assert(sizeof(struct target) == LOG_GATE_STATE, "the target's block");
_Static_assert(sizeof(struct reader) == LOG_GATE_READER, "the reader's block");

#endif
