/*
 * The target in plain C, to be measured beside the proved one: the calls of include/log_gate.h, each with its refusals first.
 * It is one unit, so that the compiler may inline as freely as it does in the proved archive.
 */
#include "commands.h"
#include "modbus.h"
#include "reader.h"

/* Firmware that trusts its own RAM leaves these two checks out; the benchmark shows what they cost. */
static bool state_taken(const uint8_t *state, size_t length)
{
#ifdef LOG_GATE_UNCHECKED
    (void)state, (void)length;
    return true;
#else
    return log_gate_check(state, length) == LOG_GATE_TAKEN;
#endif
}

static bool reader_taken(const uint8_t *reader, size_t length)
{
#ifdef LOG_GATE_UNCHECKED
    (void)reader, (void)length, (void)reader_right;
    return true;
#else
    return length >= LOG_GATE_READER && reader_right((const struct reader *)reader);
#endif
}

log_gate_result log_gate_reset(uint8_t *state, size_t state_length)
{
    if (state_length < LOG_GATE_STATE)
        return LOG_GATE_STATE_REFUSED;
    memset(state, 0, LOG_GATE_STATE);
    return LOG_GATE_TAKEN;
}

log_gate_result log_gate_register(uint8_t *state, size_t state_length, const uint8_t *memory, size_t memory_length,
                                  const uint8_t *list, size_t list_length)
{
    if (state_length < LOG_GATE_STATE)
        return LOG_GATE_STATE_REFUSED;
    if (memory_length != LOG_GATE_MEMORY)
        return LOG_GATE_MEMORY_REFUSED;
    if (!list_right(list, list_length, memory))
        return LOG_GATE_LIST_REFUSED;
    memset(state, 0, LOG_GATE_STATE);
    register_tables(&((struct target *)state)->tables, list, list_length);
    return LOG_GATE_TAKEN;
}

log_gate_result log_gate_check(const uint8_t *state, size_t state_length)
{
    if (state_length < LOG_GATE_STATE || !target_right((const struct target *)state))
        return LOG_GATE_STATE_REFUSED;
    return LOG_GATE_TAKEN;
}

log_gate_taken log_gate_byte(uint8_t *state, size_t state_length, uint8_t byte, uint8_t *memory, size_t memory_length,
                             uint8_t *answer, size_t answer_length)
{
    struct target *t = (struct target *)state;
    if (!state_taken(state, state_length))
        return (log_gate_taken){LOG_GATE_STATE_REFUSED, 0};
    if (memory_length != LOG_GATE_MEMORY)
        return (log_gate_taken){LOG_GATE_MEMORY_REFUSED, 0};
    if (answer_length < LOG_GATE_ANSWER_ROOM)
        return (log_gate_taken){LOG_GATE_ROOM_REFUSED, 0};
    if (!take_byte(&t->receiver, t->body, byte))
        return (log_gate_taken){LOG_GATE_TAKEN, 0};
    return (log_gate_taken){LOG_GATE_TAKEN, answer_message(t, memory, answer)};
}

/* In a run no answer is written, so the room need not be looked at again. */
static log_gate_block_taken take_block(struct target *t, const uint8_t *block, size_t block_length, uint8_t *memory,
                                       uint8_t *answers, size_t answers_length)
{
    size_t taken = 0, written = 0;
    while (taken < block_length && answers_length - written >= LOG_GATE_ANSWER_ROOM) {
        taken += take_run(&t->receiver, t->body, block + taken, block_length - taken);
        if (taken < block_length && take_byte(&t->receiver, t->body, block[taken++]))
            written += answer_message(t, memory, answers + written);
    }
    return (log_gate_block_taken){LOG_GATE_TAKEN, taken, written};
}

log_gate_block_taken log_gate_block(uint8_t *state, size_t state_length, const uint8_t *block, size_t block_length,
                                    uint8_t *memory, size_t memory_length, uint8_t *answers, size_t answers_length)
{
    if (!state_taken(state, state_length))
        return (log_gate_block_taken){LOG_GATE_STATE_REFUSED, 0, 0};
    if (memory_length != LOG_GATE_MEMORY)
        return (log_gate_block_taken){LOG_GATE_MEMORY_REFUSED, 0, 0};
    if (answers_length < LOG_GATE_ANSWER_ROOM)
        return (log_gate_block_taken){LOG_GATE_ROOM_REFUSED, 0, 0};
    return take_block((struct target *)state, block, block_length, memory, answers, answers_length);
}

log_gate_result log_gate_tick(uint8_t *state, size_t state_length, uint8_t *memory, size_t memory_length)
{
    if (!state_taken(state, state_length))
        return LOG_GATE_STATE_REFUSED;
    if (memory_length != LOG_GATE_MEMORY)
        return LOG_GATE_MEMORY_REFUSED;
    tick_recorder(&((struct target *)state)->recorder, memory);
    return LOG_GATE_TAKEN;
}

log_gate_taken log_gate_collect(uint8_t *state, size_t state_length, uint8_t *out, size_t out_length)
{
    struct target *t = (struct target *)state;
    if (!state_taken(state, state_length))
        return (log_gate_taken){LOG_GATE_STATE_REFUSED, 0};
    if (out_length < LOG_GATE_DATA_ROOM)
        return (log_gate_taken){LOG_GATE_ROOM_REFUSED, 0};
    return (log_gate_taken){LOG_GATE_TAKEN, collect_command(&t->application, out)};
}

log_gate_result log_gate_report(uint8_t *state, size_t state_length, uint8_t result)
{
    struct target *t = (struct target *)state;
    if (!state_taken(state, state_length))
        return LOG_GATE_STATE_REFUSED;
    if (!result_taken(&t->application, result))
        return LOG_GATE_RESULT_REFUSED;
    end_command(&t->application, result);
    return LOG_GATE_TAKEN;
}

log_gate_said log_gate_prepare(uint8_t *state, size_t state_length, const uint8_t *data, size_t data_length)
{
    struct recorder *r = &((struct target *)state)->recorder;
    if (!state_taken(state, state_length))
        return (log_gate_said){LOG_GATE_STATE_REFUSED, LOG_GATE_NOT_SERVED};
    if (data_length > MOST_DATA)
        return (log_gate_said){LOG_GATE_TAKEN, LOG_GATE_MESSAGE_TOO_LONG};
    return (log_gate_said){LOG_GATE_TAKEN, prepare_recorder(r, data, (unsigned)data_length, 2)};
}

log_gate_said log_gate_start(uint8_t *state, size_t state_length)
{
    if (!state_taken(state, state_length))
        return (log_gate_said){LOG_GATE_STATE_REFUSED, LOG_GATE_NOT_SERVED};
    return (log_gate_said){LOG_GATE_TAKEN, start_recorder(&((struct target *)state)->recorder)};
}

log_gate_taken log_gate_modbus(uint16_t station, const uint8_t *frame, size_t frame_length, uint8_t *memory, size_t memory_length,
                               uint8_t *out, size_t out_length)
{
    if (memory_length != LOG_GATE_MEMORY)
        return (log_gate_taken){LOG_GATE_MEMORY_REFUSED, 0};
    if (out_length < LOG_GATE_MODBUS_ROOM)
        return (log_gate_taken){LOG_GATE_ROOM_REFUSED, 0};
    if (station < FIRST_STATION || station > LAST_STATION)
        return (log_gate_taken){LOG_GATE_STATION_REFUSED, 0};
    if (!frame_taken(station, frame, frame_length))
        return (log_gate_taken){LOG_GATE_TAKEN, 0};
    return (log_gate_taken){LOG_GATE_TAKEN, answer_frame(frame, frame_length, memory, out)};
}

static bool is_status(uint8_t status)
{
    return status <= LOG_GATE_RECORDER_STOPPED || (LOG_GATE_NOT_SERVED <= status && status <= LOG_GATE_RANGE_WRONG);
}

log_gate_taken log_gate_write_answer(uint8_t status, const uint8_t *data, size_t data_length, uint8_t *out, size_t out_length)
{
    if (!is_status(status) || data_length > (is_error(status) ? 0 : MOST_DATA))
        return (log_gate_taken){LOG_GATE_FORM_REFUSED, 0};
    if (out_length < LOG_GATE_ANSWER_ROOM)
        return (log_gate_taken){LOG_GATE_ROOM_REFUSED, 0};
    struct writer w = begin_writing(out, status);
    put_all(&w, data, data_length);
    return (log_gate_taken){LOG_GATE_TAKEN, finish_writing(&w)};
}

static bool message_formed(uint8_t command, size_t length)
{
    if (command == START)
        return false;
    return command < FAST ? length <= 255 : length == fast_length(command);
}

/* What `put` would do to a writer, without writing: a message is measured before a byte of it is written. */
static void measure(struct writer *w, uint8_t byte)
{
    w->length += byte == START ? 2 : 1;
    w->sum = (uint8_t)(w->sum + byte);
}

static size_t message_length(uint8_t command, const uint8_t *data, size_t length)
{
    struct writer w = {NULL, 2, command};
    if (command < FAST)
        measure(&w, (uint8_t)length);
    for (size_t i = 0; i < length; i++)
        measure(&w, data[i]);
    measure(&w, (uint8_t)-w.sum);
    return w.length;
}

log_gate_taken log_gate_write_command(uint8_t command, const uint8_t *data, size_t data_length, uint8_t *out,
                                      size_t out_length)
{
    if (!message_formed(command, data_length))
        return (log_gate_taken){LOG_GATE_FORM_REFUSED, 0};
    if (out_length < message_length(command, data, data_length))
        return (log_gate_taken){LOG_GATE_ROOM_REFUSED, 0};
    struct writer w = begin_writing(out, command);
    if (command < FAST)
        put(&w, (uint8_t)data_length);
    put_all(&w, data, data_length);
    return (log_gate_taken){LOG_GATE_TAKEN, finish_writing(&w)};
}

log_gate_result log_gate_reader_begin(uint8_t *reader, size_t reader_length, size_t expected)
{
    if (reader_length < LOG_GATE_READER)
        return LOG_GATE_STATE_REFUSED;
    if (expected > MOST_DATA)
        return LOG_GATE_EXPECTED_REFUSED;
    *(struct reader *)reader = (struct reader){.expected = (uint8_t)expected};
    return LOG_GATE_TAKEN;
}

log_gate_read log_gate_reader_byte(uint8_t *reader, size_t reader_length, uint8_t byte, uint8_t *data, size_t data_length)
{
    if (!reader_taken(reader, reader_length))
        return (log_gate_read){.refusal = LOG_GATE_STATE_REFUSED};
    if (data_length < LOG_GATE_DATA_ROOM)
        return (log_gate_read){.refusal = LOG_GATE_ROOM_REFUSED};
    return read_byte((struct reader *)reader, byte, data);
}
