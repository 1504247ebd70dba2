/* The recorder: setup, start, stop, buffer query, trigger and tick. */
#ifndef PLAIN_RECORDER_H
#define PLAIN_RECORDER_H

#include "bounds.h"

enum { NO_TRIGGER, RISING, FALLING };

static void start_run(struct run *r)
{
    *r = (struct run){.running = 1};
}

/* Where the fields of a setup stand: mode, samples, post-trigger, divider, then the trigger, then the variables. */
static void read_trigger(const uint8_t *body, unsigned width, struct plan *p)
{
    const uint8_t *behind = body + 7 + width;
    p->mode = body[0];
    if (p->mode == NO_TRIGGER)
        return;
    p->address = number_at(body + 7, width);
    p->size = behind[0];
    p->sign = behind[1];
    p->threshold = number_at(behind + 2, p->size < 4 ? p->size : 4);
}

static bool plan_size_wrong(const struct plan *p)
{
    if (p->samples == 0 || p->samples * set_size(&p->variables) > BUFFER_SIZE)
        return true;
    return p->mode != NO_TRIGGER && !trigger_size_right(p->size);
}

static uint8_t read_plan(const uint8_t *body, unsigned length, unsigned width, struct plan *p)
{
    unsigned head = 13 + width;
    if (length < head)
        return LOG_GATE_LAYOUT_WRONG;
    p->samples = (uint16_t)number_at(body + 1, 2);
    p->post_trigger = (uint16_t)number_at(body + 3, 2);
    p->divider = (uint16_t)number_at(body + 5, 2);
    read_trigger(body, width, p);
    uint8_t status = read_variables(body + head, length - head, width, &p->variables);
    if (status == LOG_GATE_LAYOUT_WRONG || p->mode > FALLING || p->sign > 1)
        return LOG_GATE_LAYOUT_WRONG;
    if (status != LOG_GATE_DONE || plan_size_wrong(p))
        return LOG_GATE_SIZE_WRONG;
    if (!all_end_by(&p->variables, CALIBRATION_END) || !ends_by(p->address, p->size, CALIBRATION_END))
        return LOG_GATE_RANGE_WRONG;
    return LOG_GATE_DONE;
}

static bool is_running(const struct recorder *r)
{
    return r->ready && r->run.running;
}

/* Accepted, it stands and has taken no set; refused, the former setup stays. */
static uint8_t prepare_recorder(struct recorder *r, const uint8_t *body, unsigned length, unsigned width)
{
    if (is_running(r))
        return LOG_GATE_BUSY;
    struct plan plan = {0};
    uint8_t status = read_plan(body, length, width, &plan);
    if (status == LOG_GATE_DONE)
        *r = (struct recorder){.ready = 1, .plan = plan};
    return status;
}

static uint8_t start_recorder(struct recorder *r)
{
    if (!r->ready)
        return LOG_GATE_NOT_SET_UP;
    if (r->run.running)
        return LOG_GATE_RECORDER_RUNS;
    start_run(&r->run);
    return LOG_GATE_DONE;
}

static uint8_t set_up_recorder(struct recorder *r, const uint8_t *body, unsigned length, unsigned width)
{
    uint8_t status = prepare_recorder(r, body, length, width);
    return status == LOG_GATE_DONE ? start_recorder(r) : status;
}

static uint8_t stop_recorder(struct recorder *r)
{
    if (!r->ready)
        return LOG_GATE_NOT_SET_UP;
    if (!r->run.running)
        return LOG_GATE_RECORDER_STOPPED;
    r->run.running = 0;
    return LOG_GATE_DONE;
}

static uint8_t recorder_status(const struct recorder *r)
{
    if (!r->ready)
        return LOG_GATE_NOT_SET_UP;
    return r->run.running ? LOG_GATE_RECORDER_RUNS : LOG_GATE_RECORDER_STOPPED;
}

static uint16_t start_index(const struct run *r)
{
    return r->full ? r->place : 0;
}

/* Sign 1 reads a number as two's complement of the trigger's size. */
static int64_t valued(const struct plan *p, uint32_t number)
{
    int64_t half = (int64_t)1 << (8 * p->size - 1);
    return p->sign && number >= half ? number - 2 * half : number;
}

/* At or above the threshold (rising), at or below it (falling). */
static bool is_beyond(const struct plan *p, uint32_t now)
{
    if (p->mode == NO_TRIGGER)
        return false;
    int64_t threshold = valued(p, p->threshold);
    return p->mode == RISING ? valued(p, now) >= threshold : valued(p, now) <= threshold;
}

/* The first set after a start is looked at for itself, a later one beside the set before it. */
static bool trigger_comes(const struct plan *p, const struct run *r, uint32_t now)
{
    return is_beyond(p, now) && (r->watch == UNPRIMED || !is_beyond(p, r->value));
}

static void count_down(struct run *r, uint32_t left)
{
    r->watch = TRIGGERED;
    r->value = left;
    r->running = left > 0;
}

/* The trigger variable held `now` at the set just taken. */
static void watch_trigger(const struct plan *p, struct run *r, uint32_t now)
{
    if (r->watch == TRIGGERED)
        count_down(r, r->value - 1);
    else if (trigger_comes(p, r, now))
        count_down(r, p->post_trigger);
    else {
        r->watch = PREVIOUS;
        r->value = now;
    }
}

static void take_set(const struct plan *p, struct run *r, uint8_t *memory)
{
    const struct variables *v = &p->variables;
    copy_set(v, memory, memory + CALIBRATION_END + r->place * set_size(v));
    r->place++;
    if (r->place == p->samples) {
        r->place = 0;
        r->full = 1;
    }
    r->wait = p->divider;
    watch_trigger(p, r, number_at(memory + p->address, p->size));
}

static void tick_recorder(struct recorder *r, uint8_t *memory)
{
    if (!is_running(r))
        return;
    if (r->run.wait > 0)
        r->run.wait--;
    else
        take_set(&r->plan, &r->run, memory);
}

#endif
