#define _XOPEN_SOURCE 700
#define _DEFAULT_SOURCE
#include "port.h"

#include <errno.h>
#include <fcntl.h>
#include <poll.h>
#include <stdio.h>
#include <stdlib.h>
#include <string.h>
#include <termios.h>
#include <time.h>
#include <unistd.h>

/* Every byte goes through as it is, and none is echoed. The port stays so when nobody has it open. */
static int make_raw(const char *path)
{
    struct termios settings;
    int terminal = open(path, O_RDWR | O_NOCTTY);
    int is_raw = 0;
    if (terminal >= 0 && tcgetattr(terminal, &settings) == 0) {
        cfmakeraw(&settings);
        is_raw = tcsetattr(terminal, TCSANOW, &settings) == 0;
    }
    if (terminal >= 0)
        close(terminal);
    return is_raw;
}

int port_open(struct port *p)
{
    *p = (struct port){.ours = posix_openpt(O_RDWR | O_NOCTTY), .left = 1};
    if (p->ours < 0 || grantpt(p->ours) != 0 || unlockpt(p->ours) != 0)
        return 0;
    const char *path = ptsname(p->ours);
    if (path == NULL)
        return 0;
    snprintf(p->path, PORT_PATH, "%s", path);
    return make_raw(p->path) && fcntl(p->ours, F_SETFL, O_NONBLOCK) == 0;
}

/* EIO: the other end was closed just now. */
static int is_passing(void)
{
    return errno == EINTR || errno == EAGAIN || errno == EWOULDBLOCK || errno == EIO;
}

static int send_rest(struct port *p)
{
    while (p->out_at < p->out_end) {
        ssize_t sent = write(p->ours, p->out + p->out_at, p->out_end - p->out_at);
        if (sent < 0)
            return is_passing();
        p->out_at += (size_t)sent;
    }
    return 1;
}

static int take_bytes(struct port *p)
{
    ssize_t came = read(p->ours, p->in, sizeof p->in);
    if (came < 0)
        return is_passing();
    p->in_at = 0;
    p->in_end = (size_t)came;
    return 1;
}

/* Whoever comes next is not to find answers to another's commands: those on their way are dropped, then those that have arrived. */
static void drop_unread(const struct port *p)
{
    int theirs = open(p->path, O_RDWR | O_NOCTTY);
    tcflush(p->ours, TCOFLUSH);
    if (theirs < 0)
        return;
    tcflush(theirs, TCIFLUSH);
    close(theirs);
}

static void note_left(struct port *p)
{
    if (!p->left)
        drop_unread(p);
    p->left = 1;
    p->out_at = p->out_end;
}

/* What was sent before they left still comes. */
static int wait_alone(struct port *p, short events, int milliseconds)
{
    note_left(p);
    if (events & POLLIN)
        return take_bytes(p);
    nanosleep(&(struct timespec){.tv_nsec = milliseconds * 1000 * 1000}, NULL);
    return 1;
}

int port_wait(struct port *p, int milliseconds)
{
    int sending = p->out_at < p->out_end;
    struct pollfd ready = {.fd = p->ours, .events = sending ? POLLOUT : POLLIN};
    if (p->in_at < p->in_end && !sending)
        return 1;
    if (poll(&ready, 1, milliseconds) < 0)
        return is_passing();
    if (ready.revents & POLLHUP)
        return wait_alone(p, ready.revents, milliseconds);
    p->left = 0;
    if (ready.revents & POLLOUT)
        return send_rest(p);
    if (ready.revents & POLLIN)
        return take_bytes(p);
    return ready.revents == 0;
}

const uint8_t *port_block(const struct port *p, size_t *length)
{
    *length = p->out_at < p->out_end ? 0 : p->in_end - p->in_at;
    return p->in + p->in_at;
}

void port_take(struct port *p, size_t length)
{
    p->in_at += length;
}

int port_send(struct port *p, const uint8_t *bytes, size_t length)
{
    if (p->left)
        return 0;
    memcpy(p->out, bytes, length);
    p->out_at = 0;
    p->out_end = length;
    send_rest(p);
    return 1;
}

void port_close(struct port *p)
{
    if (p->ours >= 0)
        close(p->ours);
}
