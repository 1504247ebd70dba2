/* The scope, the recorder and its ticks, and the panel that prepares it. */
#include "count.h"

/* What the panel gives. */
static uint8_t setup[LOG_GATE_DATA_ROOM];
static size_t setup_length;

void tick(void)
{
    log_gate_tick(state, sizeof state, memory, sizeof memory);
}

void prepare_by_panel(void)
{
    log_gate_prepare(state, sizeof state, setup, setup_length);
}

static size_t add_variables(uint8_t *bytes, unsigned count)
{
    bytes[0] = (uint8_t)count;
    for (unsigned i = 0; i < count; i++)
        memcpy(bytes + 1 + 3 * i, (uint8_t[]){2, (uint8_t)(16 + 2 * i), 0}, 3);
    return 1 + 3 * count;
}

/* Sixteen sets; rising over 0x7000 at address 16, which never comes. */
static size_t fill_setup(uint8_t *bytes, unsigned variables, uint16_t divider)
{
    const uint8_t head[] = {1, 16, 0, 0, 0, (uint8_t)divider, (uint8_t)(divider >> 8), 16, 0, 2, 0, 0, 0x70, 0, 0};
    memcpy(bytes, head, sizeof head);
    return sizeof head + add_variables(bytes + sizeof head, variables);
}

static void form_recorder(struct message *m, unsigned variables, uint16_t divider)
{
    uint8_t bytes[64];
    form(m, LOG_GATE_SET_UP_RECORDER, bytes, fill_setup(bytes, variables, divider));
}

static void form_scope(struct message *m)
{
    uint8_t bytes[64];
    form(m, LOG_GATE_SET_UP_SCOPE, bytes, add_variables(bytes, 8));
}

static void start_recorder(unsigned variables, uint16_t divider)
{
    struct message m;
    form_recorder(&m, variables, divider);
}

void set_up_all(void)
{
    struct message m;
    form_scope(&m);
    start_recorder(8, 0);
    form(&m, LOG_GATE_STOP_RECORDER, data, 0);
}

void prepare_scope(void)
{
    set_up_all();
    form(&message, LOG_GATE_READ_SCOPE, data, 0);
}

void prepare_status(void)
{
    set_up_all();
    form(&message, LOG_GATE_RECORDER_STATUS, data, 0);
}

void prepare_setup(void)
{
    form_recorder(&message, 8, 0);
    form(&second, LOG_GATE_STOP_RECORDER, data, 0);
}

void prepare_panel(void)
{
    setup_length = fill_setup(setup, 8, 0);
    expect(log_gate_prepare(state, sizeof state, setup, setup_length).status == LOG_GATE_DONE, "the panel's setup is taken");
}

void prepare_waiting(void)
{
    start_recorder(8, 0xFFFF);
    tick();
}

void prepare_one(void)
{
    start_recorder(1, 0);
}

void prepare_eight(void)
{
    start_recorder(8, 0);
}

/* The longest set there is: eight variables of 255 bytes. */
void prepare_longest(void)
{
    uint8_t bytes[64] = {1, 2, 0, 0, 0, 0, 0, 16, 0, 2, 0, 0, 0x70, 0, 0, 8};
    for (unsigned i = 0; i < 8; i++)
        memcpy(bytes + 16 + 3 * i, (uint8_t[]){255, (uint8_t)(16 * i), 1}, 3);
    form(&message, LOG_GATE_SET_UP_RECORDER, bytes, 40);
}
