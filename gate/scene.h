/* The scene in the gate: logs that pass four coils, now and then one with metal in it. The same seed gives the same scene. */
#ifndef GATE_SCENE_H
#define GATE_SCENE_H

#include <stdint.h>

struct scene {
    uint64_t random;
    uint32_t at;     /* milliseconds since the log reached coil 1 */
    uint32_t length; /* milliseconds that a coil sees the log; 0 before the first one */
    uint32_t gap;    /* milliseconds from the log's end to the next log */
    uint32_t metal;  /* where in the log the metal is; 0 is none */
};

/* Before the first log; the threshold is written once, and is the technician's from then on. */
void scene_begin(struct scene *scene, uint64_t seed, uint8_t *memory);

/* A millisecond later: the gate's program reads its coils and looks at its threshold. */
void scene_tick(struct scene *scene, uint8_t *memory);

#endif
