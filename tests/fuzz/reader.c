/* The answer reader: beginning, and byte by byte. */
#include "thrown.h"

void throw_reader_begin(void)
{
    size_t expected = one_in(4) ? random_number() : below(70);
    int is_live = lend_state(&state, live_reader, sizeof live_reader);
    uint8_t refusal = log_gate_reader_begin(lent_bytes(&state), state.length, expected);
    uint8_t due = state.length < LOG_GATE_READER ? LOG_GATE_STATE_REFUSED
                  : expected > 64                ? LOG_GATE_EXPECTED_REFUSED
                                                 : LOG_GATE_TAKEN;
    count(CALL_reader_begin, refusal);
    expect(refusal == due, "reader_begin: another refusal");
    expect(kept_but(&state, 0, due ? 0 : LOG_GATE_READER), "reader_begin: a byte that is not its own");
    if (due == LOG_GATE_TAKEN && is_live)
        memcpy(live_reader, lent_bytes(&state), sizeof live_reader);
}

static uint8_t next_answer_byte(void)
{
    static uint8_t answer[LOG_GATE_ANSWER_ROOM];
    static size_t at, end;
    if (at == end) {
        uint8_t data[64];
        size_t length = live_reader[3] <= 64 ? live_reader[3] : 0;
        random_fill(data, sizeof data);
        at = 0;
        end = one_in(4) ? log_gate_write_answer(LOG_GATE_RANGE_WRONG, data, 0, answer, sizeof answer).length
                        : log_gate_write_answer(LOG_GATE_DONE, data, length, answer, sizeof answer).length;
    }
    uint8_t byte = answer[at++];
    return one_in(100) ? random_byte() : byte;
}

/* What a byte of an answer may change: the head and one body byte of the reader; data with a whole answer alone. */
static void look_at_read(log_gate_read read)
{
    expect(changed_in(&state, BODY, LOG_GATE_READER) <= 1 && kept_but(&state, 0, LOG_GATE_READER),
           "reader_byte: more than the head and a body byte");
    expect(read.whole <= 1 && read.length <= 64, "reader_byte: an answer that is none");
    expect(read.whole || (read.status == 0 && read.length == 0), "reader_byte: an answer before it is whole");
    expect(kept_but(&out, 0, read.length), "reader_byte: data without a whole answer, or behind it");
    expect(read.refusal == LOG_GATE_TAKEN || !read.whole, "reader_byte: refused and whole");
    digest_bytes(lent_bytes(&state), LOG_GATE_READER);
    digest_bytes(lent_bytes(&out), read.length);
}

void throw_reader_byte(void)
{
    int is_live = lend_state(&state, live_reader, sizeof live_reader);
    lend_room(some_length(LOG_GATE_DATA_ROOM, 60));
    int sound_length = state.length >= LOG_GATE_READER;
    uint8_t byte = is_live && sound_length && out.length >= LOG_GATE_DATA_ROOM ? next_answer_byte() : random_byte();
    log_gate_read read = log_gate_reader_byte(lent_bytes(&state), state.length, byte, lent_bytes(&out), out.length);
    count(CALL_reader_byte, read.refusal);
    if (read.refusal == LOG_GATE_STATE_REFUSED || read.refusal == LOG_GATE_ROOM_REFUSED) {
        expect(kept(&state) && kept(&out) && !read.whole, "reader_byte: refused and not untouched");
        expect(!is_live || !sound_length || out.length < LOG_GATE_DATA_ROOM, "reader_byte: refuses what is right");
        return;
    }
    expect(read.refusal == LOG_GATE_TAKEN || read.refusal == LOG_GATE_SUM_REFUSED, "reader_byte: another refusal");
    expect(sound_length && out.length >= LOG_GATE_DATA_ROOM, "reader_byte: takes a short buffer");
    look_at_read(read);
    if (is_live)
        memcpy(live_reader, lent_bytes(&state), sizeof live_reader);
}
