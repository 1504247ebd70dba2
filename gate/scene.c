/* Readings are 200 and some noise in air, more with wood under the coil, and far more near metal. */
#include "scene.h"

#include "map.h"
#include "memory.h"

enum { AIR = 200, NOISE = 32, WOOD = 150, METAL_PER_MS = 60, METAL_REACH = 40, THRESHOLD_AT_START = 1000 };

/* Milliseconds from one coil to the next. */
enum { COIL_DISTANCE = 25, FIRST_LOG = 300 };

static uint32_t below(struct scene *s, uint32_t end)
{
    s->random = s->random * 6364136223846793005u + 1442695040888963407u;
    return (uint32_t)(s->random >> 33) % end;
}

static void next_log(struct scene *s)
{
    s->at = 0;
    s->length = 500 + below(s, 400);
    s->gap = 200 + below(s, 300);
    s->metal = below(s, 4) == 0 ? METAL_REACH + below(s, s->length - 2 * METAL_REACH) : 0;
}

/* How near the metal is to a coil that sees this place of the log. */
static uint32_t metal_reading(const struct scene *s, uint32_t place)
{
    uint32_t distance = place > s->metal ? place - s->metal : s->metal - place;
    return s->metal == 0 || distance >= METAL_REACH ? 0 : (METAL_REACH - distance) * METAL_PER_MS;
}

/* With its wire cut, a coil reads nothing at all. */
static int is_cut(const uint8_t *memory, uint32_t coil)
{
    return memory[CUT_COIL] == coil + 1;
}

static uint32_t reading(struct scene *s, uint32_t coil)
{
    uint32_t air = AIR + below(s, NOISE), place = s->at - coil * COIL_DISTANCE;
    int under = s->at >= coil * COIL_DISTANCE && place < s->length;
    return under ? air + WOOD + metal_reading(s, place) : air;
}

/* The alarm stays until the log has left, so that whoever looks a second later still sees it. */
static void look_for_metal(uint8_t *memory, uint32_t highest)
{
    int metal = highest >= number_at(memory + THRESHOLD, 2);
    if (metal && memory[ALARM] == 0)
        put_number(memory + ALARMS, 4, number_at(memory + ALARMS, 4) + 1);
    if (metal)
        memory[ALARM] = 1;
    else if (memory[LOG_INSIDE] == 0)
        memory[ALARM] = 0;
}

static uint32_t leaves_at(const struct scene *s)
{
    return s->length == 0 ? 0 : s->length + (COILS - 1) * COIL_DISTANCE;
}

void scene_begin(struct scene *s, uint64_t seed, uint8_t *memory)
{
    *s = (struct scene){.random = seed, .gap = FIRST_LOG};
    put_number(memory + THRESHOLD, 2, THRESHOLD_AT_START);
}

static void move_belt(struct scene *s, uint8_t *memory)
{
    s->at++;
    if (s->at >= leaves_at(s) + s->gap) {
        next_log(s);
        put_number(memory + LOGS, 4, number_at(memory + LOGS, 4) + 1);
    }
}

void scene_tick(struct scene *s, uint8_t *memory)
{
    uint32_t highest = 0;
    if (memory[BELT_STOPPED] == 0)
        move_belt(s, memory);
    for (uint32_t coil = 0; coil < COILS; coil++) {
        uint32_t live = reading(s, coil), value = is_cut(memory, coil) ? 0 : live;
        put_number(memory + COIL_1 + 2 * coil, 2, value);
        highest = value > highest ? value : highest;
    }
    memory[LOG_INSIDE] = s->at < leaves_at(s);
    look_for_metal(memory, highest);
}
