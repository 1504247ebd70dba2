/* Frames at the second port, marked off by silence: a byte that comes sooner than that after another belongs to the same frame. */
#ifndef GATE_FRAMES_H
#define GATE_FRAMES_H

#include <stddef.h>
#include <stdint.h>

/*
 * At 19,200 baud 3.5 characters take 2 ms. A pseudo-terminal has no baud rate, and its other end may be slow between two writes, so
 * the gate waits longer.
 */
enum { FRAMES_SILENCE_MS = 5 };

/* The longest frame and one byte more: what is longer is as wrong as that. */
enum { FRAMES_ROOM = 257 };

struct frames {
    uint8_t bytes[FRAMES_ROOM];
    size_t length;
    uint64_t last; /* when a byte came, in milliseconds */
};

void frames_take(struct frames *frames, const uint8_t *bytes, size_t length, uint64_t now);

/* Whether the bytes so far are a frame, now that none came for so many milliseconds. */
int frames_is_over(const struct frames *frames, uint64_t now, uint64_t silence);

/* The next byte begins another frame. */
void frames_begin(struct frames *frames);

#endif
