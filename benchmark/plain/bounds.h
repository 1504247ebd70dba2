/* The bounds of every field, as docs/STATE.md lists them. Built with LOG_GATE_UNCHECKED, no call looks at them. */
#ifndef PLAIN_BOUNDS_H
#define PLAIN_BOUNDS_H

#include "line.h"
#include "variables.h"

static bool inside_right(const struct receiver *r)
{
    bool length_right = r->command < FAST || r->length == fast_length(r->command);
    switch (r->phase) {
    case LENGTH_NEXT:
        return r->command < FAST && r->have == 0;
    case DATA_NEXT:
        return length_right && r->have < r->length;
    case SUM_NEXT:
        return length_right && r->have == r->length;
    default:
        return false;
    }
}

static bool receiver_right(const struct receiver *r)
{
    if (r->waiting > 1)
        return false;
    return r->phase == IDLE || (r->command != START && inside_right(r));
}

/* Every variable has a size and ends at or below `end`: one walk, since every call makes it. */
static bool variables_right(const struct variables *v, uint32_t end)
{
    for (unsigned i = 0; i < v->count; i++)
        if (v->list[i].size == 0 || !ends_by(v->list[i].address, v->list[i].size, end))
            return false;
    return true;
}

static bool scope_right(const struct variables *scope)
{
    return scope->count <= MOST_VARIABLES && variables_right(scope, MEMORY_END);
}

static bool fits(uint32_t number, unsigned size)
{
    return size >= 4 || number < (uint32_t)1 << (8 * size);
}

static bool trigger_size_right(uint8_t size)
{
    return size == 1 || size == 2 || size == 4;
}

static bool trigger_right(const struct plan *p)
{
    if (p->mode > 2 || p->sign > 1)
        return false;
    if (p->mode == 0 ? p->size != 0 : !trigger_size_right(p->size))
        return false;
    return ends_by(p->address, p->size, CALIBRATION_END) && fits(p->threshold, p->size);
}

static bool plan_right(const struct plan *p)
{
    const struct variables *v = &p->variables;
    if (p->samples == 0 || !trigger_right(p))
        return false;
    if (!count_right(v->count) || !variables_right(v, CALIBRATION_END))
        return false;
    return p->samples * set_size(v) <= BUFFER_SIZE;
}

static bool watch_right(const struct plan *p, const struct run *r)
{
    switch (r->watch) {
    case UNPRIMED:
        return r->value == 0;
    case PREVIOUS:
        return fits(r->value, p->size);
    case TRIGGERED:
        return r->value <= p->post_trigger && (r->value > 0 || r->running == 0);
    default:
        return false;
    }
}

static bool run_right(const struct plan *p, const struct run *r)
{
    if (r->running > 1 || r->full > 1)
        return false;
    return r->wait <= p->divider && r->place < p->samples && watch_right(p, r);
}

static bool recorder_right(const struct recorder *r)
{
    if (r->ready == 0)
        return true;
    return r->ready == 1 && plan_right(&r->plan) && run_right(&r->plan, &r->run);
}

static bool application_right(const struct application *a)
{
    switch (a->phase) {
    case NO_COMMAND:
    case COMMAND_COLLECTED:
        return true;
    case COMMAND_WAITS:
        return 1 <= a->count && a->count <= MOST_DATA;
    case COMMAND_ENDED:
        return a->result <= LOG_GATE_MOST_RESULT;
    default:
        return false;
    }
}

/* What the list holds was looked at when it was registered, and is not again. */
static bool tables_right(const struct tables *t)
{
    return t->count <= MOST_TABLES;
}

static bool target_right(const struct target *t)
{
    return receiver_right(&t->receiver) && scope_right(&t->scope) && recorder_right(&t->recorder) &&
           application_right(&t->application) && tables_right(&t->tables);
}

static bool reader_right(const struct reader *r)
{
    if (r->waiting > 1 || r->expected > MOST_DATA)
        return false;
    unsigned data = is_error(r->status) ? 0 : r->expected;
    switch (r->phase) {
    case READER_IDLE:
        return true;
    case READER_DATA:
        return r->have < data;
    case READER_SUM:
        return r->have == data;
    default:
        return false;
    }
}

#endif
