/* The second port's call: worked frames, every exception, silence and refusal, and the memory that both ports share. */
#include "../check_sum.h"
#include "gate.h"

enum { STATION = 17, MOST_FRAME = 300 };

static uint8_t out[MOST_FRAME];

/* Every byte tells where it stands. */
static void fill_memory(void)
{
    for (size_t i = 0; i < sizeof gate.memory; i++)
        gate.memory[i] = (uint8_t)(i % 251);
    before = gate;
}

static bool memory_kept(void)
{
    return memcmp(gate.memory, before.memory, sizeof gate.memory) == 0;
}

static bool unwritten_from(size_t from)
{
    return unwritten(out + from, sizeof out - from);
}

/* ---- frames */

/* The frame with its check sum behind it. */
static size_t finished(uint8_t *frame, size_t length)
{
    unsigned sum = check_sum(frame, length);
    frame[length] = (uint8_t)sum;
    frame[length + 1] = (uint8_t)(sum >> 8);
    return length + 2;
}

/* What the call writes for a frame: its answer's length, 0 for silence. The frame and the bytes behind the answer stay. */
static size_t give_frame(const uint8_t *frame, size_t length)
{
    uint8_t kept[MOST_FRAME];
    memcpy(kept, frame, length);
    memset(out, UNWRITTEN, sizeof out);
    log_gate_taken taken = log_gate_modbus(STATION, frame, length, gate.memory, sizeof gate.memory, out, sizeof out);
    EXPECT(taken.refusal == LOG_GATE_TAKEN && unwritten_from(taken.length));
    EXPECT(memcmp(kept, frame, length) == 0);
    return taken.length;
}

/* The request is given with its check sum; whether the answer is this one, with its check sum. */
static bool answers(const char *request, const char *answer)
{
    uint8_t frame[MOST_FRAME], due[MOST_FRAME];
    size_t length = finished(due, bytes_of(answer, due));
    return give_frame(frame, finished(frame, bytes_of(request, frame))) == length && memcmp(out, due, length) == 0;
}

static bool is_silent(const char *frame)
{
    uint8_t bytes[MOST_FRAME];
    return give_frame(bytes, bytes_of(frame, bytes)) == 0 && memory_kept();
}

/* ---- requests that are carried out */

static void test_worked_frames(void)
{
    uint8_t nine[] = "123456789", frame[MOST_FRAME];
    EXPECT(check_sum(nine, 9) == 0x4B37);
    fill_memory();
    EXPECT(give_frame(frame, bytes_of("11 03 00 6B 00 03 76 87", frame)) == 11);
    EXPECT(answers("11 03 00 6B 00 03", "11 03 06 D7 D6 D9 D8 DB DA") && memory_kept());
    EXPECT(give_frame(frame, bytes_of("11 06 00 01 00 03 9A 9B", frame)) == 8 && memcmp(out, frame, 8) == 0);
    EXPECT(gate.memory[1] == 1 && gate.memory[2] == 3 && gate.memory[3] == 0 && gate.memory[4] == 4);
    gate.memory[8] = 0x12;
    gate.memory[9] = 0x00;
    EXPECT(answers("11 16 00 04 00 F2 00 25", "11 16 00 04 00 F2 00 25") && gate.memory[8] == 0x17 && gate.memory[9] == 0x00);
    EXPECT(answers("11 10 0F FE 00 02 04 12 34 56 78", "11 10 0F FE 00 02"));
    EXPECT(memcmp(gate.memory + 8188, "\x34\x12\x78\x56", 4) == 0 && gate.memory[8192] == before.memory[8192]);
}

/* 125 registers make an answer of 255 bytes, 123 a request of 255. */
static void test_longest(void)
{
    uint8_t frame[MOST_FRAME] = {STATION, 16, 0, 1, 0, 123, 246};
    fill_memory();
    EXPECT(answers("11 03 20 00 00 01", "11 83 02"));
    EXPECT(give_frame((const uint8_t *)"\x11\x03\x1F\x83\x00\x7D\x71\x47", 8) == 255 && out[2] == 250);
    EXPECT(out[3] == before.memory[16135] && out[4] == before.memory[16134]);
    EXPECT(out[251] == before.memory[16383] && out[252] == before.memory[16382]);
    for (unsigned i = 0; i < 246; i++)
        frame[7 + i] = (uint8_t)(i + 1);
    EXPECT(give_frame(frame, finished(frame, 253)) == 8 && gate.memory[2] == 2 && gate.memory[3] == 1);
    EXPECT(gate.memory[247] == 245 && gate.memory[248] == before.memory[248]);
}

/* Masks at their edges, on the old value 0x1234. */
static void test_masks(void)
{
    static const struct {
        unsigned and_mask, or_mask, becomes;
    } masks[] = {{0xFFFF, 0xFFFF, 0x1234}, {0x0000, 0xABCD, 0xABCD}, {0xFF00, 0xABCD, 0x12CD}, {0x00FF, 0x0000, 0x0034}};
    for (size_t i = 0; i < sizeof masks / sizeof masks[0]; i++) {
        char request[80];
        fill_memory();
        gate.memory[8190] = 0x34;
        gate.memory[8191] = 0x12;
        sprintf(request, "11 16 0F FF %02X %02X %02X %02X", masks[i].and_mask >> 8, masks[i].and_mask & 0xFF, masks[i].or_mask >> 8,
                masks[i].or_mask & 0xFF);
        EXPECT(answers(request, request) && gate.memory[8190] + 256u * gate.memory[8191] == masks[i].becomes);
    }
}

/* ---- exceptions, with what stands behind them in the order also wrong */

static const struct {
    const char *request, *answer;
} exceptions[] = {
    {"11 03", "11 83 03"},
    {"11 03 FF FF 00 00", "11 83 03"},
    {"11 03 FF FF 00 7E", "11 83 03"},
    {"11 03 FF FF 01 01", "11 83 03"},
    {"11 03 FF FF 00 01 00", "11 83 03"},
    {"11 03 FF FF 00 01", "11 83 02"},
    {"11 03 1F FF 00 02", "11 83 02"},
    {"11 06 FF FF 00", "11 86 03"},
    {"11 06 FF FF 00 00 00", "11 86 03"},
    {"11 06 10 00 00 00", "11 86 02"},
    {"11 06 FF FF 00 00", "11 86 02"},
    {"11 10", "11 90 03"},
    {"11 10 FF FF 00 00 00", "11 90 03"},
    {"11 10 FF FF 00 01 02 00", "11 90 03"},
    {"11 10 FF FF 00 01 02 00 00 00", "11 90 03"},
    {"11 10 FF FF 00 01 03 00 00 00", "11 90 03"},
    {"11 10 FF FF 00 02 02 00 00", "11 90 03"},
    {"11 10 FF FF 00 01 04 00 00 00 00", "11 90 03"},
    {"11 10 FF FF 00 7C F8", "11 90 03"},
    {"11 10 FF FF 01 01 02 00 00", "11 90 03"},
    {"11 10 0F FF 00 02 04 00 00 00 00", "11 90 02"},
    {"11 10 FF FF 00 01 02 00 00", "11 90 02"},
    {"11 16 FF FF 00 00 00", "11 96 03"},
    {"11 16 FF FF 00 00 00 00 00", "11 96 03"},
    {"11 16 10 00 00 00 FF FF", "11 96 02"},
};

static void test_exceptions(void)
{
    fill_memory();
    for (size_t i = 0; i < sizeof exceptions / sizeof exceptions[0]; i++)
        EXPECT(answers(exceptions[i].request, exceptions[i].answer));
    for (unsigned function = 0; function < 128; function++) {
        char request[16], answer[16];
        sprintf(request, "11 %02X", function);
        sprintf(answer, "11 %02X 01", function | 0x80);
        EXPECT(answers(request, answer) == (function != 3 && function != 6 && function != 16 && function != 22));
    }
    EXPECT(memory_kept());
}

/* ---- silences */

static void test_silences(void)
{
    uint8_t frame[MOST_FRAME] = {STATION, 16, 0, 0, 0, 124, 248};
    fill_memory();
    EXPECT(is_silent("") && is_silent("11") && is_silent("FF FF") && is_silent("11 7F 4C"));
    EXPECT(is_silent("11 06 00 01 00 03 9A 9A") && is_silent("11 06 00 01 00 03 9B 9B") && is_silent("11 06 00 01 00 03 9B 9A"));
    EXPECT(is_silent("11 06 00 01 00 03 00 00") && is_silent("11 06 00 01 00 03 9A"));
    EXPECT(is_silent("12 06 00 01 00 03 9A A8") && is_silent("00 06 00 01 00 03 99 DA") && is_silent("11 86 00 01 00 03 9B 45"));
    EXPECT(give_frame(frame, finished(frame, 255)) == 0 && memory_kept());
    EXPECT(give_frame(frame, finished(frame, 254)) == 5 && out[2] == 3 && memory_kept());
    EXPECT(give_frame(frame, finished(frame, 1)) == 0 && give_frame(frame, finished(frame, 2)) == 5);
}

/* ---- refusals, lowest first; nothing lent is touched */

static log_gate_result refused(unsigned station, size_t frame_length, size_t memory_length, size_t room)
{
    const uint8_t frame[] = {0x11, 0x06, 0x00, 0x01, 0x00, 0x03, 0x9A, 0x9B};
    memset(out, UNWRITTEN, sizeof out);
    log_gate_taken taken = log_gate_modbus((uint16_t)station, frame, frame_length, gate.memory, memory_length, out, room);
    EXPECT(taken.length == 0 && unwritten_from(0) && memory_kept());
    return taken.refusal;
}

/* Where silence would follow, too. */
static void test_refusals(void)
{
    size_t whole = LOG_GATE_MEMORY, room = LOG_GATE_MODBUS_ROOM;
    fill_memory();
    for (size_t length = 0; length <= 8; length += 8) {
        EXPECT(refused(0, length, whole - 1, room - 1) == LOG_GATE_MEMORY_REFUSED);
        EXPECT(refused(17, length, whole + 1, room) == LOG_GATE_MEMORY_REFUSED);
        EXPECT(refused(17, length, 0, room) == LOG_GATE_MEMORY_REFUSED);
        EXPECT(refused(0, length, whole, room - 1) == LOG_GATE_ROOM_REFUSED);
        EXPECT(refused(17, length, whole, 0) == LOG_GATE_ROOM_REFUSED);
        EXPECT(refused(0, length, whole, room) == LOG_GATE_STATION_REFUSED);
        EXPECT(refused(248, length, whole, room) == LOG_GATE_STATION_REFUSED);
        EXPECT(refused(256 + 17, length, whole, room) == LOG_GATE_STATION_REFUSED);
        EXPECT(refused(65535, length, whole, room) == LOG_GATE_STATION_REFUSED);
    }
    EXPECT(refused(17, 3, whole, room) == LOG_GATE_TAKEN && refused(1, 8, whole, room) == LOG_GATE_TAKEN &&
           refused(247, 8, whole, room) == LOG_GATE_TAKEN);
}

/* ---- both ports over one memory */

/* What the service port answers to these bytes. */
static bool service_answers(uint8_t *state, const char *wire, const char *answer)
{
    uint8_t bytes[100], due[100];
    size_t length = bytes_of(wire, bytes), written = bytes_of(answer, due);
    log_gate_block_taken came =
        log_gate_block(state, LOG_GATE_STATE, bytes, length, gate.memory, sizeof gate.memory, out, sizeof out);
    return came.written == written && memcmp(out, due, written) == 0;
}

static void test_shared_memory(void)
{
    uint8_t state[LOG_GATE_STATE];
    fill_memory();
    EXPECT(log_gate_reset(state, sizeof state) == LOG_GATE_TAKEN);
    EXPECT(service_answers(state, "2B D1 10", ""));
    EXPECT(answers("11 06 00 08 12 34", "11 06 00 08 12 34"));
    EXPECT(service_answers(state, "00 1F", "2B 00 34 12 BA"));
    EXPECT(service_answers(state, "2B E4 10 00 78 56 3E", "2B 00 00") && answers("11 03 00 08 00 01", "11 03 02 56 78"));
}

/* Everything lent at odd addresses. */
static void test_odd_addresses(void)
{
    static uint8_t odd_memory[8 + LOG_GATE_MEMORY], odd_out[8 + LOG_GATE_MODBUS_ROOM], odd_frame[8 + 8];
    for (size_t odd = 1; odd < 8; odd++) {
        bytes_of("11 06 00 01 00 03 9A 9B", odd_frame + odd);
        log_gate_taken taken = log_gate_modbus(STATION, odd_frame + odd, 8, odd_memory + odd, LOG_GATE_MEMORY, odd_out + odd,
                                               LOG_GATE_MODBUS_ROOM);
        EXPECT(taken.refusal == LOG_GATE_TAKEN && taken.length == 8);
        EXPECT(memcmp(odd_out + odd, odd_frame + odd, 8) == 0 && odd_memory[odd + 2] == 3);
    }
}

void test_modbus(void)
{
    test_worked_frames();
    test_longest();
    test_masks();
    test_exceptions();
    test_silences();
    test_refusals();
    test_shared_memory();
    test_odd_addresses();
}
