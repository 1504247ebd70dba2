/*
 * A log gate without the iron: the proved target behind two pseudo-terminals, a tick every millisecond, and a live scene in its
 * variables. At the second port it is a Modbus station; a frame there ends when nothing came for so many milliseconds.
 *
 *     virtual_gate [--seed N] [--ticks N] [--station N] [--silence MS]
 */
#define _XOPEN_SOURCE 700
#include "frames.h"
#include "gate.h"
#include "port.h"
#include "print.h"

#include <errno.h>
#include <signal.h>
#include <stdio.h>
#include <stdlib.h>
#include <string.h>
#include <time.h>

_Static_assert(GATE_ANSWERS <= sizeof((struct port){0}).out, "the port can hold the answers to a block");

/* How many ticks are made up for when the machine was late; beyond that they are lost, as in a gate that stood still. */
enum { MOST_LATE = 1000 };

static volatile sig_atomic_t stopped;

static void stop(int signal)
{
    (void)signal;
    stopped = 1;
}

/* ---- the clock and the loop */

static uint64_t milliseconds(void)
{
    struct timespec now;
    clock_gettime(CLOCK_MONOTONIC, &now);
    return (uint64_t)now.tv_sec * 1000 + (uint64_t)now.tv_nsec / 1000000;
}

static void tick_until(struct gate *g, uint64_t now, uint64_t most_ticks)
{
    uint64_t done = g->ticks + g->lost;
    if (now > done + MOST_LATE)
        g->lost += now - done - MOST_LATE;
    while (g->ticks + g->lost < now && g->ticks < most_ticks)
        gate_tick(g);
}

/* What came is given whole; what was not taken for want of room is given again once the answers are sent. */
static void serve(struct gate *g, struct port *port)
{
    size_t length;
    for (const uint8_t *block = port_block(port, &length); length > 0; block = port_block(port, &length)) {
        log_gate_block_taken done = gate_block(g, block, length);
        port_take(port, done.taken);
        g->came += done.taken;
        if (port_send(port, g->answers, done.written))
            g->went += done.written;
    }
}

/* ---- the second port */

struct second {
    struct port port;
    struct frames frames;
    uint64_t silence;
};

static void answer_frame(struct gate *g, struct second *s)
{
    size_t length = gate_frame(g, s->frames.bytes, s->frames.length);
    frames_begin(&s->frames);
    g->frames_came++;
    g->frames_went += length > 0 && port_send(&s->port, g->frame_answer, length);
}

/* The clock is read before the port is: what came until then has been taken when the frame is said to be over. */
static int serve_second(struct gate *g, struct second *s)
{
    uint64_t now = milliseconds();
    size_t length;
    if (!port_wait(&s->port, 0))
        return 0;
    const uint8_t *block = port_block(&s->port, &length);
    if (length > 0) {
        frames_take(&s->frames, block, length, now);
        port_take(&s->port, length);
    } else if (frames_is_over(&s->frames, now, s->silence)) {
        answer_frame(g, s);
    }
    return 1;
}

/* Returns 0 where a port was lost. */
static int run(struct gate *g, struct port *service, struct second *second, uint64_t most_ticks)
{
    uint64_t start = milliseconds();
    while (!stopped && g->ticks < most_ticks) {
        if (!port_wait(service, 1) || !serve_second(g, second))
            return 0;
        serve(g, service);
        tick_until(g, milliseconds() - start, most_ticks);
    }
    return 1;
}

/* ---- the beginning */

struct options {
    uint64_t seed, ticks, station, silence;
};

static uint64_t *option_named(struct options *o, const char *word)
{
    struct {
        const char *word;
        uint64_t *number;
    } known[] = {{"--seed", &o->seed}, {"--ticks", &o->ticks}, {"--station", &o->station}, {"--silence", &o->silence}};
    for (size_t i = 0; i < sizeof known / sizeof known[0]; i++)
        if (strcmp(word, known[i].word) == 0)
            return known[i].number;
    return NULL;
}

static int read_number(const char *text, uint64_t *number)
{
    char *end;
    errno = 0;
    *number = strtoull(text, &end, 10);
    return '0' <= text[0] && text[0] <= '9' && *end == '\0' && errno == 0;
}

static int read_options(int argc, char **argv, struct options *o)
{
    for (int i = 1; i < argc; i += 2) {
        uint64_t *number = option_named(o, argv[i]);
        if (number == NULL || i + 1 == argc || !read_number(argv[i + 1], number))
            return 0;
    }
    return 1 <= o->station && o->station <= 247;
}

static int open_port(struct port *port)
{
    int opened = port_open(port);
    if (!opened)
        fprintf(stderr, "virtual gate: no pseudo-terminal: %s\n", strerror(errno));
    return opened;
}

static void listen_for_stops(void)
{
    struct sigaction action = {.sa_handler = stop};
    sigaction(SIGINT, &action, NULL);
    sigaction(SIGTERM, &action, NULL);
}

int main(int argc, char **argv)
{
    static struct gate gate;
    struct options options = {.seed = 1, .ticks = UINT64_MAX, .station = 1, .silence = FRAMES_SILENCE_MS};
    struct port service;
    struct second second = {.frames = {.length = 0}};
    if (!read_options(argc, argv, &options)) {
        fprintf(stderr, "virtual gate: the words it knows are --seed N, --ticks N, --station N (1 to 247) and --silence MS\n");
        return 2;
    }
    second.silence = options.silence;
    if (!open_port(&service) || !open_port(&second.port))
        return 1;
    listen_for_stops();
    gate_begin(&gate, options.seed, (uint16_t)options.station);
    print_welcome(&gate, service.path, second.port.path);
    int ended = run(&gate, &service, &second, options.ticks);
    if (!ended)
        fprintf(stderr, "virtual gate: a port was lost: %s\n", strerror(errno));
    port_close(&service);
    port_close(&second.port);
    print_farewell(&gate);
    return ended ? 0 : 1;
}
