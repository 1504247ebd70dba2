/* The second port: refusals, silence, and answers to random frames. */
#include "../check_sum.h"
#include "frames.h"
#include "thrown.h"

#include <stdio.h>

/* The functions served, and at the end all others; how often each was answered with each exception, and how many got silence. */
static const struct {
    uint8_t code;
    const char *name, *exceptions;
} functions[] = {
#define FUNCTION(code, name, exceptions) {code, name, exceptions},
#define OTHER_FUNCTIONS(exceptions) {0, "other", exceptions},
#include "../reachable.h"
};

enum { FUNCTIONS = sizeof functions / sizeof functions[0], EXCEPTIONS = 4 };

static uint64_t frames[FUNCTIONS][EXCEPTIONS], silences;

static uint8_t modbus_refusal(unsigned station)
{
    if (mem.length != LOG_GATE_MEMORY)
        return LOG_GATE_MEMORY_REFUSED;
    if (out.length < LOG_GATE_MODBUS_ROOM)
        return LOG_GATE_ROOM_REFUSED;
    return 1 <= station && station <= 247 ? LOG_GATE_TAKEN : LOG_GATE_STATION_REFUSED;
}

static int gets_silence(unsigned station, const struct frame *f)
{
    return f->length < 4 || f->length > 256 || f->bytes[0] != station || f->bytes[1] > 127 || check_sum(f->bytes, f->length) != 0;
}

static size_t function_row(uint8_t function)
{
    size_t row = 0;
    while (row < FUNCTIONS - 1 && functions[row].code != function)
        row++;
    return row;
}

/* An answer begins as its frame and has a right check sum. One with an exception has five bytes, and leaves the memory. */
static void look_at_frame(const struct frame *f, size_t length)
{
    const uint8_t *answer = lent_bytes(&out);
    int refused = answer[1] >= 0x80;
    uint8_t exception = refused ? answer[2] : 0;
    expect(answer[0] == f->bytes[0] && (answer[1] & 0x7F) == f->bytes[1], "modbus: an answer to another frame");
    expect(length <= LOG_GATE_MODBUS_ROOM && check_sum(answer, length) == 0, "modbus: an answer with a wrong check sum");
    expect(exception < EXCEPTIONS && (!refused || length == 5), "modbus: another exception");
    expect(kept_but(&mem, 0, refused || f->bytes[1] == READ_REGISTERS ? 0 : VARIABLES_END), "modbus: a byte that is not its own");
    frames[function_row(f->bytes[1])][exception]++;
    digest_bytes(answer, length);
    keep_memory(0, VARIABLES_END);
}

void throw_modbus(void)
{
    unsigned station = one_in(16) ? random_number() & 0xFFFF : one_in(16) ? 246 + below(3) : below(4);
    struct frame f = random_frame((uint8_t)station);
    lend_memory();
    lend_room(some_length(LOG_GATE_MODBUS_ROOM, 60));
    lend(&block, f.bytes, f.length, f.length);
    uint8_t due = modbus_refusal(station);
    log_gate_taken taken = log_gate_modbus((uint16_t)station, lent_bytes(&block), f.length, lent_bytes(&mem), mem.length,
                                           lent_bytes(&out), out.length);
    count(CALL_modbus, taken.refusal);
    expect(taken.refusal == due, "modbus: another refusal");
    expect(kept(&block) && kept_but(&out, 0, taken.length), "modbus: changes the frame, or bytes behind the answer");
    if (due != LOG_GATE_TAKEN || gets_silence(station, &f)) {
        silences += due == LOG_GATE_TAKEN;
        expect(taken.length == 0 && kept(&mem), "modbus: refused or silent, and not untouched");
        return;
    }
    expect(taken.length >= 5, "modbus: silence to a frame that gets none");
    look_at_frame(&f, taken.length);
}

void tell_frames(void)
{
    printf("frames");
    for (size_t row = 0; row < FUNCTIONS; row++)
        for (int exception = 0; exception < EXCEPTIONS; exception++)
            if (frames[row][exception] > 0)
                printf(", %s %d %llu", functions[row].name, exception, (unsigned long long)frames[row][exception]);
    printf("; silences %llu\n", (unsigned long long)silences);
}

void require_frames(void)
{
    expect(silences > 0, "no frame ever got silence");
    for (size_t row = 0; row < FUNCTIONS; row++)
        for (unsigned exception = 0; exception < EXCEPTIONS; exception++)
            expect(is_listed(functions[row].exceptions, exception, DECIMAL) == (frames[row][exception] > 0),
                   "a function gets an exception too few or too many");
}
