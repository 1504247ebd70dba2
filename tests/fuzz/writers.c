/* The answer writer and the command writer. */
#include "thrown.h"
#include "traffic.h"

static uint8_t answer_form(uint8_t status, size_t length)
{
    int known = status <= 2 || (0x81 <= status && status <= 0x89);
    return known && length <= (status >= 0x80 ? 0 : 64) ? LOG_GATE_TAKEN : LOG_GATE_FORM_REFUSED;
}

static void look_at_written(log_gate_taken written, uint8_t due)
{
    expect(written.refusal == due, "a writer with another refusal");
    expect((written.length > 0) == (due == LOG_GATE_TAKEN), "a writer with another length");
    expect(kept_but(&out, 0, written.length), "a writer changes more than it writes");
    digest_bytes(lent_bytes(&out), written.length);
}

/* How long code, data and sum byte are once they are doubled; `first` bytes of the sum stand before the data. */
static size_t doubled_length(uint8_t first, const uint8_t *data, size_t length)
{
    size_t n = 2 + length + 1;
    uint8_t sum = first;
    for (size_t i = 0; i < length; i++) {
        sum = (uint8_t)(sum + data[i]);
        n += data[i] == 0x2B;
    }
    return n + (sum == 0x100 - 0x2B);
}

void throw_write_answer(void)
{
    uint8_t data[80], status = one_in(4) ? random_byte() : (uint8_t)(below(2) ? below(3) : 0x81 + below(9));
    size_t length = one_in(2) ? 0 : below(70);
    random_fill(data, sizeof data);
    lend_room(some_length(LOG_GATE_ANSWER_ROOM, 60));
    log_gate_taken written = log_gate_write_answer(status, data, length, lent_bytes(&out), out.length);
    uint8_t due = answer_form(status, length);
    if (due == LOG_GATE_TAKEN && out.length < LOG_GATE_ANSWER_ROOM)
        due = LOG_GATE_ROOM_REFUSED;
    count(CALL_write_answer, written.refusal);
    look_at_written(written, due);
    expect(due != LOG_GATE_TAKEN || written.length == doubled_length(status, data, length), "an answer of another length");
}

/* A command that can be formed is refused exactly where the room is shorter than what it takes. */
void throw_write_command(void)
{
    struct message m = random_message();
    if (one_in(16))
        m.command = one_in(2) ? 0x2B : LOG_GATE_READ_1;
    int standard = m.command < 0xC0;
    int formed = m.command != 0x2B && (m.command < 0xC0 || m.length == (m.command >> 4 & 3) * 2u);
    uint8_t first = (uint8_t)(m.command + (standard ? m.length : 0));
    size_t needed = doubled_length(first, m.data, m.length) + (standard ? 1 + (m.length == 0x2B) : 0);
    lend_room(one_in(4) ? below(80) : needed + below(3) - 1);
    log_gate_taken written = log_gate_write_command(m.command, m.data, m.length, lent_bytes(&out), out.length);
    uint8_t due = !formed ? LOG_GATE_FORM_REFUSED : out.length < needed ? LOG_GATE_ROOM_REFUSED : LOG_GATE_TAKEN;
    count(CALL_write_command, written.refusal);
    look_at_written(written, due);
    expect(due != LOG_GATE_TAKEN || written.length == needed, "a command of another length");
}
