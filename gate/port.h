/*
 * A port: a pseudo-terminal that carries raw bytes, opened by whoever takes the technician's part, or the mill controller's. As at a
 * cable's end, one may leave and another come, and what is sent while nobody is there is lost.
 */
#ifndef GATE_PORT_H
#define GATE_PORT_H

#include <stddef.h>
#include <stdint.h>

enum { PORT_PATH = 64 };

struct port {
    int ours; /* the gate's end */
    char path[PORT_PATH]; /* of the other end */
    int left; /* nobody has the other end open */
    uint8_t in[256];
    size_t in_at, in_end;
    uint8_t out[1024];
    size_t out_at, out_end;
};

/* Opens the port. Returns 0 when it cannot; errno says why. */
int port_open(struct port *port);

/* Waits so many milliseconds for bytes to come, or for room where answers are still to be sent. Returns 0 when the port is lost. */
int port_wait(struct port *port, int milliseconds);

/* What came and is not taken yet, `length` bytes; none while answers are not fully sent, so that their buffer is free. */
const uint8_t *port_block(const struct port *port, size_t *length);

/* So many of the first of these bytes are taken. */
void port_take(struct port *port, size_t length);

/*
 * Answers to be sent, as many bytes as port->out has at most; `port_wait` sends what does not go at once. Where nobody is there, and where
 * somebody leaves without reading them, they are dropped. Returns 0 where nobody is there.
 */
int port_send(struct port *port, const uint8_t *bytes, size_t length);

void port_close(struct port *port);

#endif
