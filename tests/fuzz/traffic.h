/* Random messages for the gate: mostly ones that it takes, and some of every kind that it refuses. */
#ifndef TRAFFIC_H
#define TRAFFIC_H

#include <stddef.h>
#include <stdint.h>

struct message {
    uint8_t command;
    uint8_t data[255];
    size_t length;
};

struct message random_message(void);

/* Random data for the message's command, which has a length byte. */
void fill_standard(struct message *m);

/* The bytes on the wire, of which some are lost, changed or made up. */
uint8_t next_wire_byte(void);

#endif
