/*
 * The scene of the virtual gate: the same seed gives the same, metal raises the alarm, and the threshold is the technician's. The
 * self-test finds a coil whose wire is cut.
 */
#include "../gate/map.h"
#include "../gate/memory.h"
#include "../gate/scene.h"
#include "../gate/self_test.h"
#include "expect.h"

#include <stdio.h>
#include <string.h>

enum { SIZE = 64, TICKS = 60000 };

/* A minute of a scene; what is in the memory then. */
static void play(uint64_t seed, uint32_t threshold, uint8_t *memory)
{
    struct scene scene;
    memset(memory, 0, SIZE);
    scene_begin(&scene, seed, memory);
    put_number(memory + THRESHOLD, 2, threshold);
    for (int i = 0; i < TICKS; i++)
        scene_tick(&scene, memory);
    expect(number_at(memory + THRESHOLD, 2) == threshold, "the threshold stays as it was written");
}

static void expect_own_bytes(const uint8_t *memory)
{
    for (unsigned i = 0; i < SIZE; i++)
        expect((COIL_1 <= i && i < ALARMS + 4) || memory[i] == 0, "the scene keeps to its map");
}

/* What the self-test says of a scene with this coil cut, and that it says so after just its time. */
static uint8_t self_test_with(uint8_t cut)
{
    uint8_t memory[SIZE] = {0};
    struct scene scene;
    struct self_test test;
    int ticks = 0;
    scene_begin(&scene, 1, memory);
    memory[CUT_COIL] = cut;
    scene_tick(&scene, memory);
    self_test_begin(&test, memory);
    do {
        scene_tick(&scene, memory);
        ticks++;
    } while (!self_test_tick(&test, memory));
    expect(ticks == SELF_TEST_MS && !self_test_tick(&test, memory), "the self-test ends once, after its time");
    return self_test_result(&test);
}

int main(void)
{
    uint8_t first[SIZE], again[SIZE], other[SIZE], deaf[SIZE], shy[SIZE];
    play(1, 1000, first);
    play(1, 1000, again);
    play(2, 1000, other);
    play(1, 0xFFFF, deaf);
    play(1, 0, shy);
    expect(memcmp(first, again, SIZE) == 0, "the same seed gives the same scene");
    expect(memcmp(first, other, SIZE) != 0, "another seed gives another scene");
    expect_own_bytes(first);
    unsigned logs = number_at(first + LOGS, 4), alarms = number_at(first + ALARMS, 4);
    expect(logs > 20 && 0 < alarms && alarms < logs, "some logs have metal in them, and some have none");
    expect(number_at(deaf + ALARMS, 4) == 0 && deaf[ALARM] == 0, "no reading is at the highest threshold");
    expect(number_at(shy + ALARMS, 4) == 1 && shy[ALARM] == 1, "every reading is at a threshold of 0");
    expect(memcmp(first + COIL_1, deaf + COIL_1, 2 * COILS) == 0, "the threshold does not change the readings");
    for (uint8_t cut = 0; cut <= COILS; cut++)
        expect(self_test_with(cut) == cut, "the self-test gives the number of the coil that is cut");
    expect(self_test_with(COILS + 1) == 0, "a number that no coil has cuts none");
    printf("scene_test: %u logs in a minute, %u with metal\n", logs, alarms);
    return 0;
}
