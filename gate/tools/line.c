#define _XOPEN_SOURCE 700
#define _DEFAULT_SOURCE
#include "line.h"

#include <fcntl.h>
#include <poll.h>
#include <termios.h>
#include <unistd.h>

/* Milliseconds for a byte. A gate needs none of them; a busy machine that runs a virtual one may need seconds. */
enum { PATIENCE = 10000 };

int line_open(struct line *l, const char *path)
{
    struct termios settings;
    l->port = open(path, O_RDWR | O_NOCTTY);
    if (l->port < 0 || tcgetattr(l->port, &settings) != 0)
        return 0;
    cfmakeraw(&settings);
    return tcsetattr(l->port, TCSAFLUSH, &settings) == 0;
}

int line_byte(struct line *l)
{
    uint8_t byte;
    struct pollfd ready = {.fd = l->port, .events = POLLIN};
    return poll(&ready, 1, PATIENCE) == 1 && read(l->port, &byte, 1) == 1 ? byte : -1;
}

static int send_command(struct line *l, uint8_t command, const uint8_t *body, size_t length)
{
    uint8_t wire[LOG_GATE_COMMAND_ROOM];
    log_gate_taken written = log_gate_write_command(command, body, length, wire, sizeof wire);
    return written.refusal == LOG_GATE_TAKEN && write(l->port, wire, written.length) == (ssize_t)written.length;
}

int line_ask(struct line *l, uint8_t command, const uint8_t *body, size_t length, size_t expected)
{
    uint8_t reader[LOG_GATE_READER];
    if (log_gate_reader_begin(reader, sizeof reader, expected) != LOG_GATE_TAKEN || !send_command(l, command, body, length))
        return -1;
    for (int byte = line_byte(l); byte >= 0; byte = line_byte(l)) {
        log_gate_read read = log_gate_reader_byte(reader, sizeof reader, (uint8_t)byte, l->data, sizeof l->data);
        if (read.refusal != LOG_GATE_TAKEN)
            return -1;
        if (read.whole)
            return read.status;
    }
    return -1;
}
