/*
 * Throws random states, lengths and bytes at every call, and looks that a call refuses exactly with the number that is due,
 * leaves what it refuses as it was, and changes nothing beyond what a taken call may change.
 *
 *     fuzz [SEED [ROUNDS]]
 */
#include "thrown.h"

#include <stdio.h>
#include <stdlib.h>

void throw_reset(void), throw_reader_begin(void);

enum { SWEEPS = 8 };

static const struct {
    uint32_t weight;
    void (*throw)(void);
} thrown[] = {
#define THROWN(weight, name) {weight, throw_##name},
#include "subjects.h"
};

static void throw_one(void)
{
    uint32_t all = 0, i = 0;
#define THROWN(weight, name) all += weight;
#include "subjects.h"
    uint32_t which = below(all);
    for (; which >= thrown[i].weight; i++)
        which -= thrown[i].weight;
    thrown[i].throw();
}

/* What a state or a reader comes from. */
void throw_beginning(void)
{
    if (one_in(2))
        throw_reset();
    else
        throw_reader_begin();
}

static void sweep(void)
{
#define SWEPT(name) sweep_##name();
#include "subjects.h"
}

/* After few rounds something may not have come yet; the rounds of a run without words are enough for any seed. */
static void report(void)
{
#define COUNTED(name) tell_##name();
#include "subjects.h"
#define COUNTED(name) require_##name();
#include "subjects.h"
}

int main(int argc, char **argv)
{
    if (argc > 1)
        seed = strtoull(argv[1], NULL, 10);
    if (argc > 2)
        rounds = strtoull(argv[2], NULL, 10);
    random_seed(seed);
    log_gate_reset(live, sizeof live);
    log_gate_reader_begin(live_reader, sizeof live_reader, 8);
    for (current = 0; current < rounds; current++) {
        throw_one();
        if (current % (rounds / SWEEPS + 1) == 0)
            sweep();
    }
    report();
    printf("fuzz: seed %llu, %llu rounds, none wrong, digest %016llx\n", (unsigned long long)seed, (unsigned long long)rounds,
           (unsigned long long)digest);
    return 0;
}
